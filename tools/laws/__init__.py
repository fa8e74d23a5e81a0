"""The formulas of docs/LAWS.md in Python, each in one place. No proof stands on them, and nothing rests on them.

    numbers      quotients, logarithms, powers of two
    clock        how many ticks a second has, and the constants that follow from it
    limits       thresholds of a domain, of a cgroup and of a context; freerun, setpoint, the limit that follows
    counters     batches of per-CPU counters, the error, the bound
    proportions  parts of a domain's recent events, and the fraction
    position     the position polynomial and the position ratio
    estimate     bandwidth, its average, the rate limit
    pauses       the longest and the least pause, the poll interval
    decision     the decision of a check, with the numbers behind it
    strict       that of a check in a context of a strict device, and the bound of such a context
    verdict_json a decision for other programs
    allowance    the allowance of a writer: when a check is due
    age          when an inode is due, and how many are noticed at once

`tools/replay.py` runs machines by them, and the words of `tools/wb` explain and compare by them. Pages have 4096 bytes, rates are in
pages a second, and a tick is a millisecond unless a clock says otherwise.
"""
