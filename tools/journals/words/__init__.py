"""The words of `tools/wb` that read traces and journals, a file each.

    texts     the two texts that several of them read
    summary   tables to read
    csv       tables for other programs
    plot      pictures
    annotate  each line with a sentence
    why       the fault of a trace or a law text
"""
