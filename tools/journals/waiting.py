"""Which inodes wait in a flusher's list for their age, as a journal tells it. Its order isn't judged."""
from __future__ import annotations

from laws.age import due_after

from .events import Age, Notice, Take
from .trace import Trace


class WaitingLists:
    """The moment at which each inode that waits is due, by its flusher and its number. Memory is that of the trace."""

    def __init__(self, trace: Trace) -> None:
        self._trace = trace
        self._dues: dict[tuple[int, int], int] = {}

    def notice(self, event: Notice) -> int:
        """An inode more waits: the moment at which it is due."""
        context = self._trace.inodes[event.inode].context
        due = due_after(event.since, self._trace.contexts[context].expire)
        self._dues[event.flusher, event.inode] = due
        return due

    def leave(self, event: Age | Take) -> int | None:
        """An inode waits no longer: the moment at which it was due, where a line told that it waited."""
        return self._dues.pop((event.flusher, event.inode), None)
