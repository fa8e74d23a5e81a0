"""The program `tools/wb`: what its words have in common.

    words         the table of words; a new word is a row here, and a module
    parsers       the command line: the word that is given, and what it takes
    statuses      how the program ends
    errors        what ends it otherwise than well: each error has its status
    output        whole, or not there
    interpreters  another Python, where this one lacks a package
    main          does what the word says

A word's module has two functions, and is loaded only where its word is given:

    add(command)    tells the parser of the word what the word takes
    run(given)      does it, and answers the status; `given` holds what was parsed
"""
