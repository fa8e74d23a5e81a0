"""What an interval of a run has come to: each step and each entry of a journal is counted as it comes, and isn't kept."""
from __future__ import annotations

from bisect import bisect_right
from collections.abc import Callable, Iterable, Sequence


class Entries:
    """A part of a journal that isn't kept: each entry is handed on."""

    def __init__(self, take: Callable[[str], None]) -> None:
        self.append = take

    def __iadd__(self, lines: Iterable[str]) -> Entries:
        for line in lines:
            self.append(line)
        return self


class Steps:
    """How many steps were made, in place of the steps."""

    def __init__(self) -> None:
        self.made = 0

    def __len__(self) -> int:
        return self.made


class TaskTally:
    """What a task did: the pages that it wrote, its checks, the pauses above 0 that they began, the ticks of these, the longest."""

    def __init__(self) -> None:
        self.pages = self.checks = self.pauses = self.ticks = self.longest = 0


class Places:
    """The context of each page: pages run through the inodes in order."""

    def __init__(self, firsts: Sequence[int], contexts: Sequence[int]) -> None:
        self.firsts, self.contexts = firsts, contexts

    def context_of(self, page: int) -> int:
        """The context of a page."""
        return self.contexts[bisect_right(self.firsts, page) - 1]


class Interval:
    """What has happened in an interval so far: of each domain the greatest count after a step, of each context its pages that were freshly
    written and completed, and of each task that did something what it did. Without a step all of that is nothing."""

    def __init__(self, places: Places, contexts: int) -> None:
        self.places = places
        self.most: list[int] = []
        self.dirtied, self.written = [0] * contexts, [0] * contexts
        self.tasks: dict[int, TaskTally] = {}

    def step(self, counts: list[int]) -> None:
        """A step, with the exact count of each domain after it."""
        self.most = [max(pair) for pair in zip(self.most, counts)] if self.most else counts

    def entry(self, line: str) -> None:
        """An entry of a CPU's part of a journal."""
        word, *fields = line.split(" ")
        if word == "write":
            self.tally(fields[0]).pages += 1
            self.dirtied[self.places.context_of(int(fields[1]))] += fields[2] == "fresh"
        elif word == "done":
            self.written[self.places.context_of(int(fields[1]))] += 1
        elif word == "check":
            self.check(self.tally(fields[0]), int(fields[5]))

    def check(self, task: TaskTally, pause: int) -> None:
        """A check of a task, and the pause that it began."""
        task.checks += 1
        if pause:
            task.pauses += 1
            task.ticks += pause
            task.longest = max(task.longest, pause)

    def tally(self, task: str) -> TaskTally:
        """That of a task, which has done something in the interval."""
        return self.tasks.setdefault(int(task), TaskTally())
