"""How many times its freerun the threshold of a cgroup is, as its checks tell it."""
from __future__ import annotations

from laws.limits import Limits, freerun_of

from .tracepoints import State

UNIT = 1 << 16
"""Parts of how many times its freerun a threshold is."""

ROUGH = 32
"""That is off by at most a part of so many from the machine's, before a check has told it."""

FINE = 256
"""By at most so much from what checks told: both ratios are rounded, and the hard limit may stand a little above a threshold that fell."""


class Scale:
    """How many times its freerun the threshold of a cgroup is, as its checks told so far."""

    def __init__(self) -> None:
        self.middle = 0

    def open(self, state: State) -> tuple[int, int]:
        """From what to what it may be."""
        of_machine = state.thresh * UNIT // max(freerun_of(Limits(state.thresh, state.background, state.thresh)), 1)
        if abs(self.middle - of_machine) > of_machine // ROUGH:
            self.middle = 0
        middle, part = (self.middle, FINE) if self.middle else (of_machine, ROUGH)
        return middle - middle // part, middle + middle // part

    def take(self, low: int, high: int, state: State) -> None:
        """A check says that it is from low to high."""
        middle = self.middle or state.thresh * UNIT // max(freerun_of(Limits(state.thresh, state.background, state.thresh)), 1)
        nearest = min(max(middle, low), high)
        self.middle = middle + (nearest - middle) // 8 if self.middle else nearest
