"""What a running kernel tells of its dirty pages, beside the laws. No proof stands on it.

    heads        task, CPU and time of a line, as several programs print them
    tracepoints  the three tracepoints as typed lines
    common       lines as most of a text are, the short way
    reading      a text of them, line by line, and how many ticks a second its kernel has
    joining      each check with the state before it, the estimates around it, and the check before
    before       what the lines before a place leave for those after it
    pieces       several processes, each of which reads a piece of a text
    whole        what takes a whole text, as it is read or in memory
    raised       which thresholds are raised for a real-time task
    numbers      a number that the kernel printed beside the one by the laws, and how they compare
    reads        what a check read of its domain
    domains      which domain a check was made by
    averages     which averages a check may have been decided by, and how one came about
    estimates    numbers of a line of an estimate
    checks       numbers of a check, each with the reasons for one that isn't equal
    quick        which of them are equal at the first look
    strict       numbers of a check of a strict disk, by the law of those
    cgroups      numbers of a check by its cgroup's own domain
    scale        how many times its freerun the threshold of a cgroup is
    searching    which input would give a number
    comparing    all numbers of a text, and how many are equal
    found        what decided a check, and where each number of that stands in the text
    causes       why a writer paused, and what would have made it shorter
    explaining   the causes of all pauses of a text, and the longest pauses
    drawing      pictures of a text
    machine      a machine like the one that printed a text
    shares       how fast its disks write, what part of the threshold each may have, and its cgroups
    machine_lines the lines of its trace
    beside       what a kernel did, and what a replay of such a trace did
    recording    how a text is taken, as root
    words        the words of `tools/wb kernel`
"""
