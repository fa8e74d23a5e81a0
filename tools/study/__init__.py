"""A study: traces, parameters of them over values, and repeats, as one file. No proof stands on it.

    reading     the file of a study, which is TOML
    grid        its runs by their numbers: which trace, which setting, which repeat
    making      a run of a study, as a run of a job
    table       the rows as a table, and the table read again
    spread      the median and the spread of a column over repeats
    drawing     the pictures: lines over one variable, a map over two
    words       the words of `tools/wb`: study, plot-study
"""
