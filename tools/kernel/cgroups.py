"""The numbers of a check that its cgroup's own domain made, as far as they follow from what is printed.

No line tells the thresholds of such a domain. Its freerun follows from the printed setpoint, which is half of the machine's limit and that
freerun. Both thresholds are parts of the pages that the cgroup may have, by the same two ratios as the machine's; so its threshold is as
many times its freerun as the machine's is, but for the rounding of a ratio to a 4096th. How many times it is, each check tells more closely.
The hard limit is taken to be the threshold, above which it is only after the threshold fell.
"""
from __future__ import annotations

from collections.abc import Callable, Iterator
from typing import NamedTuple

from laws.decision import DomainRead
from laws.estimate import task_rate
from laws.limits import Limits
from laws.position import position

from . import averages
from .domains import freeruns
from .joining import Joined
from .numbers import Kind, Number, Verdict
from .reads import context_limits
from .scale import UNIT
from .searching import where
from .tracepoints import Balance

DOMAIN = "its cgroup's own domain holds it, of which no line tells the pages and thresholds before"
PAGES = "it counts the pages of its cgroup's own domain, which no other line tells"
SETPOINT = "it is that of its cgroup's own domain, whose freerun follows from it alone"
INTERVAL = "it is the smaller interval, that of its cgroup's own domain"
THRESHOLD = "a threshold of the cgroup that its freerun leaves open gives it"
CONTEXT = "a context threshold of the disk in the machine's domain gives it, which no line tells"
RATIO = "the ratio by the cgroup's own domain is at least the machine's, which the check took"

MOST_TRIED = 256
"""Thresholds that are tried one by one."""


def own_reads(check: Balance, freerun: int, thresh: int) -> Iterator[DomainRead]:
    """What a check read of its cgroup's domain, were this the freerun and the threshold."""
    limits = Limits(thresh, 2 * freerun - thresh, thresh)
    open_limits = context_limits(check, thresh)
    for at in sorted({open_limits[0], open_limits[-1]}):
        yield DomainRead(limits, check.dirty, at)


def rate_by(check: Balance, freerun: int, thresh: int, average: int, is_last: bool) -> int:
    """The task rate limit by a freerun, a threshold and an average, with the last or the first context threshold that is left open."""
    read = list(own_reads(check, freerun, thresh))[-1 if is_last else 0]
    return check.ratelimit * position(*read, check.context_dirty, average).ratio >> 10


class Solved(NamedTuple):
    """A read of a cgroup's own domain that gives the rate of its check, the average in it, and between which rates others lie."""

    read: DomainRead | None
    average: int
    least: int
    most: int
    open_limits: tuple[int, int]
    """The thresholds that the freerun leaves open."""


def solved(joined: Joined) -> Solved | None:
    """The threshold that is left open and gives the rate, if there is one; nothing where no average or state is told. Each check is solved
    once, and tells those after it what is open: so all checks of cgroups are to be solved in their order, whichever are wanted."""
    if joined.solved is None:
        joined.solved = (solve(joined),)
    return joined.solved[0]


def solve(joined: Joined) -> Solved | None:
    """The same for the first time."""
    check, state, scale = joined.check, joined.state, joined.scale
    told = averages.of_rate(joined)
    if not told or state is None or scale is None:
        return None
    low, high = scale.open(state)
    least = most = -1
    open_limits = (0, 0)
    for freerun in freeruns(check):
        begin, end = max(freerun * low // UNIT - 1, freerun), min(freerun * high // UNIT + 2, 2 * freerun)
        for average in told:
            for is_last in (True, False):
                def by(thresh: int) -> int:
                    return rate_by(check, freerun, thresh, average, is_last)

                if least < 0:
                    least, most, open_limits = by(begin), by(end), (begin, end)
                if found := where(check.rate, by, begin, end) or one_by_one(check.rate, by, begin, end):
                    scale.take(*((at * UNIT) // max(freerun, 1) for at in (found[0] - 1, found[-1] + 1)), state)
                    read = list(own_reads(check, freerun, found[0]))[-1 if is_last else 0]
                    return Solved(read, average, min(least, check.rate), max(most, check.rate), open_limits)
    return Solved(None, told[0], least, most, open_limits)


def rate(joined: Joined) -> Number | None:
    """The task rate limit: a threshold that is left open gives it, or it is unexplained."""
    check, found = joined.check, solved(joined)
    if found is None:
        return None
    if found.read is None:
        return Number(check.line, Kind.RATE, check.rate, (found.least + found.most) // 2, found.least, found.most, Verdict.UNEXPLAINED)
    return Number(check.line, Kind.RATE, check.rate, check.rate, found.least, found.most, Verdict.WITHIN, THRESHOLD)


def one_by_one(wanted: int, of: Callable[[int], int], begin: int, end: int) -> range:
    """An input that gives the number, where quotients let the formula fall a little now and then as it rises."""
    step = max((end - begin) // MOST_TRIED, 1)
    return next((range(at, at + 1) for at in range(begin, end + 1, step) if of(at) == wanted), range(0))


def ratios_of(check: Balance) -> range:
    """The position ratios that give the rate of a check."""
    ratelimit = max(check.ratelimit, 1)
    return range(-(-check.rate * 1024 // ratelimit), ((check.rate + 1) * 1024 - 1) // ratelimit + 1)


def task_rates(check: Balance, before: int) -> list[int]:
    """The task rates of an estimate from a rate limit, by the ratios that give the rate of the check that made it."""
    return [task_rate(before, ratio) for ratio in ratios_of(check)]
