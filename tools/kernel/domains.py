"""Which domain a check was made by, as its own numbers say.

A check prints the pages and the setpoint of the domain that holds its writer back more: the machine's, or its cgroup's own. Of the machine's
the line of the state before tells all. Of a cgroup's own domain no line tells a threshold; but its freerun follows from the printed
setpoint, and its two thresholds are to one another as the machine's.
"""
from __future__ import annotations

from laws.limits import Limits, freerun_of

from .joining import Joined
from .tracepoints import Balance, State

FOLD = 188
"""Pages: what a CPU's own number of a counter of the machine, at most 125, and half as much again adds at once."""


def printed_setpoint(limit: int, thresh: int, background: int) -> int:
    """The setpoint as the kernel prints it: by the following limit alone, even where that is below the threshold."""
    return (limit + (thresh + background) // 2) // 2


def is_by_machine(check: Balance, state: State) -> bool:
    """Whether pages and setpoint are those of the machine's domain."""
    return (check.setpoint == printed_setpoint(check.limit, state.thresh, state.background)
            and abs(check.dirty - state.count) <= FOLD)


def is_by_cgroup(joined: Joined) -> bool:
    """Whether a check was made by its cgroup's own domain: neither number is the machine's, and both may be those of a part of it."""
    check, state = joined.check, joined.state
    if state is None or not check.is_of_cgroup or is_by_machine(check, state):
        return False
    low, _ = freeruns(check)
    return (check.setpoint != printed_setpoint(check.limit, state.thresh, state.background) and check.dirty <= state.count + FOLD
            and 0 <= low <= freerun_of(Limits(state.thresh, state.background, state.thresh))
            and check.context_setpoint <= check.setpoint)


def freeruns(check: Balance) -> tuple[int, int]:
    """The least and the greatest freerun by which the setpoint was printed."""
    low = 2 * check.setpoint - check.limit
    return low, low + 1
