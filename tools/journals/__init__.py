"""Reads what `wbsim` reads and writes, and shows it: these are words of the program `tools/wb`.

No proof stands on this package, and none is claimed of it: it reads what a journal says and judges nothing; whether a journal of
a run over threads is lawful for its trace says `wbsim audit`. A journal is read as a stream of typed lines, so that the longest one needs little memory.

    source        a file, or standard input, line by line
    progress      how far the reading is, where standard error is a terminal
    whole_text    a short text, whole, with the place of what is refused
    spelling      how a line of a trace or a law text is spelled
    ranges        the ranges of its numbers
    trace         what a machine has and what its tasks do
    trace_limits  what its numbers and its lines are at most
    trace_reader  reading that
    trace_text    printing it, as `wbsim check` does, with the lines that only the model has
    law_reader    reading a law text
    events        what each line of a journal says, as a type for each sort of line
    forms         how a line of each type is spelled
    reader        the order in which a journal's lines stand
    waiting       which inodes wait in a flusher's list for their age
    listener      what takes the events in turn
    domain_reads  what a check read of a domain, with the context's threshold in it
    check_steps   which step is the last of a check
    moments       at which moment a step was made
    bound         the bound of a domain, where a journal has no steps that say it
    step_sums     what the steps of a long journal come to, without an event for each
    figures       what a table of runs needs of a journal, without an event for each line
    summary       by task, by device, by domain
    summary_text  that as tables to read
    summary_json  that for other programs
    tables        csv
    series        long curves and bars in bounded memory
    scene         what is drawn, kept while a journal is read
    picture       drawing it, with matplotlib
    turns         what a step changes, which its line does not say
    sentences     what a line says, in words
    reasons       the numbers behind each check, by the laws
    words         the words of the program
"""
