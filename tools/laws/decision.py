"""The decision of a check, with every number behind it. Rates are in pages a second, pauses in ticks of a clock."""
from __future__ import annotations

from collections.abc import Sequence
from enum import Enum
from typing import NamedTuple

from .clock import PROFILE, Clock
from .limits import Limits, freerun_of
from .pauses import Least, max_pause, min_pause, poll_interval
from .position import Position, position

LATE = 1000
"""Ticks after which a writer that is behind starts anew, at 1000 a second."""


class Kind(Enum):
    """What a check decides."""

    FREE = "free"
    GO = "go"
    EXEMPT = "exempt"
    WAIT = "wait"


class Rule(Enum):
    """Which rule gave the pause."""

    FREE = "no domain is above its freerun: no pause"
    RATE_IS_ZERO = "the rate is 0: the longest pause"
    WANTED = "between the least and the longest pause: as it is"
    CUT = "above the longest pause: cut to that"
    ANEW = "more than a second late: none, and the writer starts anew"
    PAID = "below the least pause: none, and the period counts as paused"
    LONGER = "the period is 0 and the allowance used up: none, and the allowance grows by the pages dirtied"
    KEPT = "the period is 0: none, and all stays"


class DomainRead(NamedTuple):
    """What a check read of a domain: its limits, its pages, and the context's threshold in it."""

    limits: Limits
    dirty: int
    context_limit: int


class Task(NamedTuple):
    """Pages dirtied since the last pause, the allowance, and the moment at which that pause ended (0: none)."""

    dirtied: int
    allowance: int
    ended: int


class Terms(NamedTuple):
    """What a rule finds by what was read: whether the writer runs free, the pages up to which it then does, else its ratio, and whether
    the context is exceeded."""

    free: bool
    poll: int
    ratio: int
    over: bool


class Verdict(NamedTuple):
    """A decision, and the numbers that led to it. Those that were not needed are None."""

    kind: Kind
    pause: int
    left: int
    task: Task
    exceeded: bool
    rule: Rule
    ratio: int | None = None
    rate: int | None = None
    longest: int | None = None
    least: Least | None = None
    period: int | None = None
    think: int | None = None
    wanted: int | None = None
    positions: tuple[Position, ...] = ()


def is_free(reads: Sequence[DomainRead]) -> bool:
    """Whether no domain is above its freerun."""
    return all(read.dirty <= freerun_of(read.limits) for read in reads)


def is_exceeded(reads: Sequence[DomainRead], context_dirty: int) -> bool:
    """Whether in some domain the context is above its threshold and the domain above its own."""
    return any(context_dirty > read.context_limit and read.dirty > read.limits.thresh for read in reads)


def decide(reads: Sequence[DomainRead], context_dirty: int, average: int, ratelimit: int, task: Task, now: int, error: int,
           cap: int, clock: Clock = PROFILE) -> Verdict:
    """The decision of a check: the first read is the global domain's, the second its cgroup's where there is one."""
    free = is_free(reads)
    poll = min(poll_interval(read.dirty, read.limits.thresh) for read in reads)
    positions = () if free else tuple(position(*read, context_dirty, average) for read in reads)
    ratio = min((it.ratio for it in positions), default=0)
    terms = Terms(free, poll, ratio, is_exceeded(reads, context_dirty))
    return finish(terms, context_dirty, average, ratelimit, task, now, error, cap, clock)._replace(positions=positions)


def finish(terms: Terms, context_dirty: int, average: int, ratelimit: int, task: Task, now: int, error: int, cap: int,
           clock: Clock = PROFILE) -> Verdict:
    """The decision of a check of which a rule has found the terms."""
    if terms.free:
        after = Task(0, terms.poll, now)
        return Verdict(Kind.FREE, 0, left_of(after, cap), after, False, Rule.FREE)
    rate = ratelimit * terms.ratio >> 10
    longest = max_pause(context_dirty, average, clock)
    least = min_pause(longest, rate, average, ratelimit, clock)
    period = think = wanted = None
    kind, pause, rule, after = Kind.GO, 0, Rule.RATE_IS_ZERO, task
    if not rate:
        kind, pause = Kind.EXEMPT if context_dirty <= error else Kind.WAIT, longest
        after = Task(0, least.pages, now + pause)
    else:
        period = clock.second * task.dirtied // rate
        think = now - task.ended if task.ended else None
        wanted = period - (think or 0)
        pause, rule, after = pause_of(task, now, period, wanted, least, longest, clock)
    left = 0 if kind is Kind.WAIT else left_of(after, cap)
    return Verdict(kind, pause, left, after, terms.over, rule, terms.ratio, rate, longest, least, period, think, wanted)


def pause_of(task: Task, now: int, period: int, wanted: int, least: Least, longest: int, clock: Clock) -> tuple[int, Rule, Task]:
    """The pause of a writer that goes on, the rule, and the task's numbers after it."""
    if wanted < least.pause:
        if wanted < -LATE * clock.second // 1000:
            return 0, Rule.ANEW, Task(0, task.allowance, now)
        if period:
            return 0, Rule.PAID, Task(0, task.allowance, task.ended + period)
        if task.allowance <= task.dirtied:
            return 0, Rule.LONGER, Task(task.dirtied, task.allowance + task.dirtied, task.ended)
        return 0, Rule.KEPT, task
    if wanted > longest:
        now += min(wanted - longest, longest)
        return longest, Rule.CUT, Task(0, least.pages, now + longest)
    return wanted, Rule.WANTED, Task(0, least.pages, now + wanted)


def left_of(task: Task, cap: int) -> int:
    """The pages that a writer may then dirty."""
    return min(max(task.allowance - task.dirtied, 1), cap)
