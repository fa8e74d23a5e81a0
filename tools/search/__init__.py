"""Many runs of traces that differ in one thing. No proof stands on it.

    editing     a trace with one parameter changed
    running     runs of traces by a program, and what they came to
    drawing     the picture of a sweep
    orders      order lines as a list that can be changed a little
    climbing    the interleaving that comes nearest to a bound
    seeking     such a search from one seed, as a run of a job
    words       the words of `tools/wb`: sweep, nearest
"""
