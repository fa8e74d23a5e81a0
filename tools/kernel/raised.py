"""Which states are those of a task of a real-time class: a kernel raises both thresholds for it, and the state that it reads tells them so.
"""
from __future__ import annotations

from laws.limits import raised

from .tracepoints import State

NEAR = 64
"""Thresholds move by less than a part of so many from line to line, but where someone sets them."""


def is_raised(state: State, plain: State) -> bool:
    """Whether the thresholds of a state are those of another, raised."""
    return all(abs(told - raised(base, state.limit)) <= base // NEAR
               for told, base in ((state.thresh, plain.thresh), (state.background, plain.background)))


class Plain:
    """The last state of a text that isn't raised."""

    def __init__(self) -> None:
        self.state: State | None = None

    def is_raised(self, state: State) -> bool:
        """Whether this one is. If it isn't, it is the last one from here on."""
        plain = self.state
        if plain is None or (state.thresh != plain.thresh or state.background != plain.background) and not is_raised(state, plain):
            self.state = state
            return False
        return state.thresh != plain.thresh or state.background != plain.background
