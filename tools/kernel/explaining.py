"""Takes what is joined, and keeps what an explanation needs: the pauses of each task by their causes, and the longest ones or the one at a line.
"""
from __future__ import annotations

import heapq
from dataclasses import dataclass

from . import cgroups
from .causes import Cause, cause_of
from .domains import is_by_cgroup
from .found import Found, found_of
from .joining import Estimated, Free, Joined
from .reading import Text


@dataclass
class Sum:
    """The pauses of a task by one cause: how many, milliseconds in all, and the longest with its line."""

    many: int = 0
    paused: int = 0
    longest: int = 0
    line: int = 0

    def take(self, pause: int, line: int) -> None:
        """One pause more."""
        self.many += 1
        self.paused += pause
        if pause > self.longest:
            self.longest, self.line = pause, line


    def join(self, other: Sum) -> None:
        """Those that follow."""
        self.many += other.many
        self.paused += other.paused
        if other.longest > self.longest:
            self.longest, self.line = other.longest, other.line


@dataclass(frozen=True)
class Wish:
    """Which checks are explained: the one at a line, or so many of the longest, of these tasks or of all."""

    line: int = 0
    longest: int = 1
    task: str = ""


@dataclass
class Explained:
    """A check, what decided it, and its cause."""

    joined: Joined
    found: Found | None
    cause: Cause


class Explaining:
    """Takes a text."""

    def __init__(self, text: Text, wish: Wish) -> None:
        self.text = text
        self.wish = wish
        self.checks = 0
        self.begin = self.end = 0.0
        self.sums: dict[tuple[str, Cause], Sum] = {}
        self.tasks: set[str] = set()
        self.next_line = 0
        """The first check from the line on that was asked for, which is of none."""

        self.at_line: Explained | None = None
        self.kept: list[tuple[int, int, Explained]] = []
        """The longest so far: pause, how late its line is, below 0, and the check."""

    def free(self, free: Free) -> None:
        """Nothing was paused."""

    def estimate(self, estimated: Estimated) -> None:
        """Nothing was paused."""

    def check(self, joined: Joined) -> None:
        """A check."""
        check = joined.check
        self.begin = self.begin or check.time
        self.end = check.time
        self.checks += 1
        self.tasks.add(check.task)
        if is_by_cgroup(joined):
            cgroups.solved(joined)
        if self.wish.line:
            self.look(joined)
        elif check.pause > 0 and self.is_wanted(check.task):
            found = found_of(joined, self.text.clock)
            cause = cause_of(found)
            key = check.task, cause
            if key not in self.sums:
                self.sums[key] = Sum()
            self.sums[key].take(check.pause, check.line)
            if len(self.kept) < self.wish.longest or check.pause > self.kept[0][0]:
                one = (check.pause, -check.line, Explained(joined, found, cause))
                heapq.heappush(self.kept, one)
                if len(self.kept) > self.wish.longest:
                    heapq.heappop(self.kept)

    def is_wanted(self, task: str) -> bool:
        """Whether a task is one that was asked for: by its name with its number, or without."""
        return self.wish.task in ("", task, task.rpartition("-")[0])

    def look(self, joined: Joined) -> None:
        """Whether a check is the one at the line: that of its own line, of the state that it read, or of its estimate."""
        check, wanted = joined.check, self.wish.line
        own = joined.before.line if joined.is_own and joined.before else 0
        if wanted in (check.line, joined.state.line if joined.state else 0, own):
            found = found_of(joined, self.text.clock)
            self.at_line = Explained(joined, found, cause_of(found))
        elif check.line > wanted and not self.next_line:
            self.next_line = check.line

    def follow(self, sampled: float) -> None:
        """What went before is of no use here."""

    def join(self, other: Explaining) -> None:
        """Adds what another one took that follows."""
        self.text.join(other.text)
        self.checks += other.checks
        self.begin = self.begin or other.begin
        self.end = other.end or self.end
        self.tasks |= other.tasks
        for key, one in other.sums.items():
            self.sums.setdefault(key, Sum()).join(one)
        self.at_line = other.at_line or self.at_line
        self.next_line = self.next_line or other.next_line
        self.kept = heapq.nlargest(self.wish.longest, [*self.kept, *other.kept], key=lambda it: it[:2])

    def longest(self) -> list[Explained]:
        """The longest pauses, the longest first."""
        return [one for *_, one in sorted(self.kept, key=lambda it: it[:2], reverse=True)]
