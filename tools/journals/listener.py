"""What takes the events of a journal in turn."""
from __future__ import annotations

from collections.abc import Callable, Mapping
from typing import Any

from .events import Event


class Listener:
    """Has a call for each type of event that it asks for, and passes over the others."""

    def __init__(self, calls: Mapping[type, Callable[[Any], None]]) -> None:
        self._calls = dict(calls)

    def take(self, event: Event) -> None:
        """One event more."""
        call = self._calls.get(type(event))
        if call:
            call(event)
