"""The parts of `wb kernel`, each a module with `add(command)` and `run(given)` as a word of the program has.

    explain  why writers paused, and every number behind one pause
    compare  each number of a text beside the laws
    plot     pictures of a text, kernel and laws in two colours
    trace    a trace of a machine like the one that printed a text
    beside   a text beside the journal of such a trace
    record   takes a text, as root
"""
