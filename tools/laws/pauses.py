"""The longest and the least pause of a check, and the poll interval. Pauses are in ticks of a clock."""
from __future__ import annotations

from enum import Enum
from typing import NamedTuple

from .clock import PROFILE, Clock
from .numbers import log2, sat_sub

FEW = 32
"""Pages: an allowance below it is taken anew."""

new = tuple.__new__


class Target(Enum):
    """By which rule the ticks of a least pause were found."""

    RATE = "what the rate limit allows in that time"
    LONGEST = "too few pages, so what it allows in the longest pause"
    FEW = "too few pages, so the time that 32 pages take"
    CUT = "the writer's rate would make it longer than the longest pause, so what that rate allows in the longest"


class Least(NamedTuple):
    """The pages of the next allowance, the ticks that they are to take, and the pause below which none is made."""

    pages: int
    ticks: int
    pause: int
    target: Target


def max_pause(context_dirty: int, average: int, clock: Clock = PROFILE) -> int:
    """The longest pause."""
    return min(context_dirty // (1 + average // clock.near_eighth) + 1, clock.longest)


def min_pause(most: int, rate: int, average: int, ratelimit: int, clock: Clock = PROFILE) -> Least:
    """The least pause, where the longest is `most` and the writer's rate is `rate`."""
    grown = sat_sub(log2(average), log2(ratelimit)) * (10 * clock.second) // 1024
    ticks = min(clock.least + grown, 1 + most // 2)
    target, pages = Target.RATE, ratelimit * ticks // clock.near_second
    if pages < FEW:
        target, ticks = Target.LONGEST, most
        pages = ratelimit * ticks // clock.near_second
        if pages > FEW:
            target, pages, ticks = Target.FEW, FEW, clock.second * FEW // ratelimit
    if clock.second * pages // (rate + 1) > most:
        target, ticks = Target.CUT, most
        pages = rate * ticks // clock.near_second
    return new(Least, (pages, ticks, 1 + ticks // 2 if pages >= FEW else ticks, target))


def poll_interval(dirty: int, thresh: int) -> int:
    """Pages that a writer may dirty before it is asked again, where it runs free."""
    return 1 << log2(thresh - dirty) // 2 if thresh > dirty else 1
