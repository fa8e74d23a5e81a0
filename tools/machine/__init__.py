"""A trace's first lines from a machine in use, and its tasks from a job file of fio. No proof stands on it.

    reading   what /proc and /sys tell of a machine
    fio       what a job file of fio says, as far as it is understood
    making    the trace, scaled to what a trace can have, and what it was made of
    words     the word of `tools/wb`: from-machine
"""
