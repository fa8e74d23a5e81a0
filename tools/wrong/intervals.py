"""Wrong rules of a forecast: in which interval a step or an entry is counted, what a row says of it, and when it is told."""
from __future__ import annotations

from .rule import FORECAST, INTERVAL, Rule

LEFT = "if moment // self.every > self.clock // self.every:"
TOLD = "        told, self.interval = self.interval, Interval(self.places, len(self.contexts))\n"
ENTRY = """\
        \"\"\"An entry of a CPU, which is the interval's.\"\"\"
        self.interval.entry(line)
"""
DOMAIN = "{it.exact} {told.most[number]} {it.limits.hard} {it.peak + it.base}"
RATES = "{it.estimate.bandwidth} {it.estimate.average} {it.estimate.ratelimit}"
GREATEST = "self.most = [max(pair) for pair in zip(self.most, counts)] if self.most else counts"
PAUSE = """\
        if pause:
            task.pauses += 1
"""
LONGEST = "            task.longest = max(task.longest, pause)\n"
LAST = "        super().run()\n        self.tell()\n"

OF_WHEN = (
    Rule("a row is told before the clock has left its interval", FORECAST, LEFT, "if moment > self.clock:"),
    Rule("rows are told at the end alone", FORECAST, LEFT, "if False:"),
    Rule("the last rows aren't told at the end", FORECAST, LAST, "        super().run()\n"),
    Rule("a step of an interval's last moment is counted in the next one", FORECAST, LEFT,
         "if (moment + 1) // self.every > (self.clock + 1) // self.every:"),
    Rule("intervals begin with the opening", FORECAST, LEFT, "if (moment - 1) // self.every > (self.clock - 1) // self.every:"),
    Rule("intervals are numbered from 1", FORECAST, 'f"from {self.clock // self.every}"', 'f"from {self.clock // self.every + 1}"'),
    Rule("rows have the number of the interval to which the clock comes", FORECAST, "            self.tell()\n        super().come(moment)\n",
         "            before, self.clock = self.clock, moment\n            self.tell()\n            self.clock = before\n        super().come(moment)\n"),
    Rule("an interval without an entry isn't told", FORECAST, "if told.most:", "if told.most and (told.tasks or any(told.written)):"),
    Rule("an interval in which no count changes isn't told", FORECAST, "if told.most:",
         "if told.most and (any(told.dirtied) or any(told.written)):"),
)

OF_COUNTS = (
    Rule("a greatest count is that of all time", INTERVAL, GREATEST,
         "counts = [max(pair) for pair in zip(counts, getattr(Interval, 'all', counts))]\n        Interval.all = counts\n        " + GREATEST),
    Rule("a greatest count is the last one", INTERVAL, GREATEST, "self.most = counts"),
    Rule("a greatest count may be that with which the interval began", FORECAST, TOLD,
         TOLD + "        self.interval.most = [it.exact for it in self.domains] if told.most else []\n"),
    Rule("a greatest count is told as the count", FORECAST, DOMAIN, DOMAIN.replace("{it.exact}", "{told.most[number]}")),
    Rule("all domains have the greatest count of the first", FORECAST, DOMAIN, DOMAIN.replace("[number]", "[0]")),
    Rule("a hard limit is the one that a CPU has loaded", FORECAST, DOMAIN, DOMAIN.replace("it.limits.hard", "self.cpus[0].held[number][1].hard")),
    Rule("a hard limit is the greatest one", FORECAST, DOMAIN, DOMAIN.replace("it.limits.hard", "it.peak")),
    Rule("a hard limit is the threshold", FORECAST, DOMAIN, DOMAIN.replace("it.limits.hard", "it.limits.thresh")),
    Rule("a bound is that of the hard limit of this time", FORECAST, DOMAIN, DOMAIN.replace("it.peak +", "it.limits.hard +")),
)

OF_PAGES = (
    Rule("pages that are dirty already are told as dirtied", INTERVAL, '+= fields[2] == "fresh"', "+= 1"),
    Rule("a task's pages are those that it dirtied", INTERVAL, "self.tally(fields[0]).pages += 1", 'self.tally(fields[0]).pages += fields[2] == "fresh"'),
    Rule("pages are written where they are claimed", INTERVAL, 'elif word == "done":', 'elif word == "claim":'),
    Rule("all pages are told of the first context", INTERVAL, "return self.contexts[bisect_right(self.firsts, page) - 1]", "return self.contexts[0]"),
    Rule("an inode's first page is told of the context of the one before", INTERVAL, "bisect_right(self.firsts, page) - 1",
         "max(bisect_right(self.firsts, page - 1) - 1, 0)"),
    Rule("a bandwidth and its average are exchanged", FORECAST, RATES, "{it.estimate.average} {it.estimate.bandwidth} {it.estimate.ratelimit}"),
    Rule("a rate limit is the balanced one", FORECAST, RATES, RATES.replace("ratelimit", "balanced")),
)

OF_TASKS = (
    Rule("a pause is counted where it ends", FORECAST, ENTRY, """\
        later = self.__dict__.setdefault("later", [])
        while later and later[0][0] <= self.clock:
            _, task, pause = later.pop(0)
            tally = self.interval.tally(task)
            tally.pauses, tally.ticks, tally.longest = tally.pauses + 1, tally.ticks + pause, max(tally.longest, pause)
        word, *fields = line.split(" ")
        if word == "check" and fields[5] != "0":
            later.append((self.clock + int(fields[5]), fields[0], int(fields[5])))
            line = " ".join([word, *fields[:5], "0", *fields[6:]])
        self.interval.entry(line)
"""),
    Rule("a check without a pause is told as one of no ticks", INTERVAL, PAUSE, "        if pause >= 0:\n            task.pauses += 1\n"),
    Rule("checks without a pause aren't counted", INTERVAL, "        task.checks += 1\n", "        task.checks += pause > 0\n"),
    Rule("a longest pause is the last one", INTERVAL, LONGEST, "            task.longest = pause\n"),
    Rule("the checks of a task are told of its context's number", INTERVAL, "self.check(self.tally(fields[0])", "self.check(self.tally(fields[1])"),
    Rule("tasks stand in the order in which they came", FORECAST, "sorted(told.tasks.items())", "told.tasks.items()"),
    Rule("a task without a page has no row", FORECAST, "in sorted(told.tasks.items()):", "in sorted(it for it in told.tasks.items() if it[1].pages):"),
)

OF_INTERVALS = (*OF_WHEN, *OF_COUNTS, *OF_PAGES, *OF_TASKS)
