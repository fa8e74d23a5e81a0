"""Wrong rules that the tests have to notice. No proof stands on them.

    values   the definitions of a file of worked runs, worked out
    inputs   every worked run, row and example of the repository: the text that goes in, and the one that is wanted
    rule     what a wrong rule is: a change of one place of `tools/replay.py` or `tools/laws/`
    order    the wrong rules of the order of a replay, and those that change no journal
    lines    the wrong rules of the chunk of a device, and of the first estimate of a context
    scans    the wrong rules of scans that go on where the last one ended
    paces    the wrong rules of paces
    intervals  the wrong rules of forecasts
    rules    all wrong rules
    outputs  what the program prints of inputs; it runs in the changed copy
    serving  the program there that loads the copy for each change, and answers
    trying   the copy, the change, and which inputs notice it

`tools/wrong-rules` is their program.
"""
