"""Forecasts: the run of a replay, told by intervals of time while it goes on. No proof stands on it.

    interval  what an interval has come to, entry by entry and step by step
    machine   the machine of `tools/replay.py`, told so: the second implementation of `wbsim forecast`
    events    the lines of a forecast
    reader    the order in which they stand
    running   the lines of a forecast while a program makes it
    figures   what all intervals come to: by task, by domain and by context
    tables    these as a text for people
    picture   a picture of a domain, by intervals
    words     the word of `tools/wb`: forecast
"""
