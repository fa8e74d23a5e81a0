"""Estimates of a context: its bandwidth, the average of that, and the rate limit of its writers. Rates are in pages a second."""
from __future__ import annotations

from .clock import PROFILE, Clock
from .numbers import ceil_div, sat_sub

FIRST_RATE = 25600
"""Each rate of an estimate before its first sample, where nothing else is said of its context."""

AGE = 200
"""Ticks after which a sample makes a new estimate."""


def next_bandwidth(bandwidth: int, average: int, written: int, elapsed: int, clock: Clock = PROFILE) -> tuple[int, int]:
    """Bandwidth and average after so many pages were written in so many ticks."""
    grown = written * clock.second
    if elapsed > clock.window:
        return grown // elapsed, max(grown // elapsed, 1)
    new = (grown + bandwidth * (clock.window - elapsed)) // clock.window
    return new, next_average(average, bandwidth, new)


def next_average(average: int, bandwidth: int, new: int) -> int:
    """The average after an update from one bandwidth to a new one: it moves where the bandwidth goes on away from it."""
    if average > bandwidth >= new:
        average -= average - bandwidth >> 3
    elif average < bandwidth <= new:
        average += bandwidth - average >> 3
    return max(average, 1)


def moved(average: int, bandwidth: int) -> int:
    """An average that moves: by an eighth of its way to the bandwidth."""
    return next_average(average, bandwidth, bandwidth)


def task_rate(ratelimit: int, ratio: int) -> int:
    """How fast a writer may go, as the rate limit law takes it."""
    return (ratelimit * ratio >> 10) + 1


def balanced_rate(task: int, average: int, rate: int) -> int:
    """The rate at which dirtying and writing are in balance, from the rate at which pages were dirtied."""
    return min(task * average // (rate | 1), average)


def next_ratelimit(ratelimit: int, before: int, balanced: int, task: int, is_below: bool) -> int:
    """The next rate limit. `before` is the last balanced rate, `balanced` the new one, `is_below` whether the domain is below its
    setpoint."""
    around = (before, balanced, task)
    step = sat_sub(min(around), ratelimit) if is_below else sat_sub(ratelimit, max(around))
    shift = ratelimit // (2 * step + 1)
    step = ceil_div(step >> shift, 8) if shift < 64 else 0
    return max(ratelimit + step if ratelimit < balanced else ratelimit - step, 1)


class Estimate:
    """An estimate, and what it becomes by samples."""

    def __init__(self, bandwidth: int = FIRST_RATE, average: int = FIRST_RATE, ratelimit: int = FIRST_RATE) -> None:
        self.version, self.at, self.written, self.dirtied = 0, 1, 0, 0
        self.bandwidth, self.average, self.ratelimit, self.balanced = bandwidth, average, ratelimit, ratelimit

    def update(self, now: int, written: int, dirtied: int, ratio: int, is_below: bool) -> None:
        """Takes a sample, at least `AGE` ticks after the last one."""
        elapsed = now - self.at
        rate = sat_sub(dirtied, self.dirtied) * 1000 // elapsed
        task = task_rate(self.ratelimit, ratio)
        balanced = balanced_rate(task, self.average, rate)
        self.ratelimit = next_ratelimit(self.ratelimit, self.balanced, balanced, task, is_below)
        self.balanced = balanced
        self.bandwidth, self.average = next_bandwidth(self.bandwidth, self.average, sat_sub(written, self.written), elapsed)
        self.version, self.at, self.written, self.dirtied = self.version + 1, now, written, dirtied
