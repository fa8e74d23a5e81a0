"""Which numbers of a check are equal at the first look, as most of a text are: by the likeliest average and the first threshold."""
from __future__ import annotations

from laws.clock import MOST_KEPT, Clock
from laws.limits import Limits, freerun_of
from laws.pauses import max_pause, min_pause
from laws.position import position

from .checks import PLACES, allowance_after, ended_after, pause_of
from .joining import Joined
from .numbers import Kind
from .tracepoints import Sample

new = tuple.__new__
FREE, COUNT, SETPOINT, RATE, PERIOD, PAUSE, ALLOWANCE, THINK = (
    1 << PLACES[kind] for kind in (Kind.FREE, Kind.COUNT, Kind.SETPOINT, Kind.RATE, Kind.PERIOD, Kind.PAUSE, Kind.ALLOWANCE, Kind.THINK))
NO_THINK = 1 << len(PLACES)
"""There is no number of that kind."""


def equal_ones(joined: Joined, spans: Spans) -> int:
    """The set of them: a bit each, by its place in `KINDS`, and one where a number isn't there."""
    after, state, check = joined.after, joined.state, joined.check
    if after is None or joined.is_strict:
        return 0
    found = 0
    if state is not None:
        _, _, _, _, dirty, writeback, background, thresh, told, _, _ = state
        _, _, _, _, _, limit, setpoint, count, own_setpoint, own_dirty, ratelimit, rate, *_ = check
        if count == dirty + writeback:
            if joined.is_own:
                average = joined.before.average  # type: ignore[union-attr]
            else:
                average, told = after.average, limit
            limits = new(Limits, (thresh, background, told if told > thresh else thresh))
            freerun = freerun_of(limits)
            found = COUNT | FREE if count > freerun else COUNT
            if setpoint == (limit + freerun) // 2:
                found |= SETPOINT
                at = (own_setpoint * (thresh + 1) + thresh) // (setpoint or 1)
                if ratelimit * position(limits, count, at, own_dirty, average).ratio >> 10 == rate:
                    found |= RATE
    return found | spans.equal_ones(joined, after)


class Spans:
    """The numbers of a check that are spans of time, or follow from them. Spans are few, so what is printed of their ticks is kept."""

    def __init__(self, clock: Clock) -> None:
        self.clock = clock
        self.printed: dict[int, int] = {}

    def print(self, ticks: int) -> int:
        """So many ticks as they are printed."""
        if len(self.printed) >= MOST_KEPT:
            self.printed.clear()
        found = self.printed[ticks] = self.clock.milliseconds(ticks)
        return found

    def equal_ones(self, joined: Joined, after: Sample) -> int:
        """Those of period, pause, allowance and think."""
        _, _, _, time, _, _, _, _, _, own_dirty, ratelimit, rate, dirtied, allowance, _, pause, period, think = joined.check
        clock, average, printed = self.clock, after.average, self.printed
        second, ticks_of = clock.second, clock.ticks
        longest = max_pause(own_dirty, average, clock)
        least = min_pause(longest, rate, average, ratelimit, clock)
        joined.first_bounds = (longest, least)
        found = 0
        ticks = second * dirtied // rate if rate else longest
        if period == (printed[ticks] if ticks in printed else self.print(ticks)):
            found = PERIOD
        ticks = pause_of(rate, ticks_of[period] - ticks_of[think], longest, least)
        if (pause if pause > 0 else 0) == (printed[ticks] if ticks in printed else self.print(ticks)):
            found |= PAUSE
        previous = joined.previous
        if previous is None or joined.free is not None or previous.first_bounds is None:
            return found
        before = previous.check
        if allowance == (previous.first_bounds[1].pages if before.pause > 0 else allowance_after(before, previous.first_bounds[1], clock)):
            found |= ALLOWANCE
        if not (think or before.think or before.period):
            found |= NO_THINK
        else:
            ticks = round((time - before.time) * second) - ended_after(before, clock)
            if think == (printed[ticks] if ticks in printed else self.print(ticks)):
                found |= THINK
        return found
