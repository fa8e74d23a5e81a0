"""What the intervals of a forecast come to: by task, by domain and by context.

Rates and means are those of the time in which tasks are at work: up to the end of the last interval with a row of a task. A task's own are those
up to the end of its last row.
"""
from __future__ import annotations

from dataclasses import dataclass

from journals.trace import Trace
from laws.estimate import FIRST_RATE

from .events import ContextRow, DomainRow, Rows, TaskRow

SECOND = 1000
"""Ticks."""


class Held:
    """The mean over intervals of a value as it stands at the end of each. Where an interval has no rows it is as before."""

    def __init__(self, value: int) -> None:
        self.value, self._sum, self._to = value, 0, 0

    def add(self, number: int, value: int) -> None:
        """The value at the end of an interval."""
        self._sum += self.value * (number - self._to) + value
        self.value, self._to = value, number + 1

    def mean(self) -> float:
        """The mean so far."""
        return self._sum / max(self._to, 1)


@dataclass
class TaskFigures:
    """What a task did, and after how many intervals it had done all of it."""

    pages: int = 0
    checks: int = 0
    pauses: int = 0
    ticks: int = 0
    longest: int = 0
    until: int = 0

    def take(self, number: int, row: TaskRow) -> None:
        """A row more."""
        self.pages += row.pages
        self.checks += row.checks
        self.pauses += row.pauses
        self.ticks += row.ticks
        self.longest = max(self.longest, row.longest)
        self.until = number + 1


class DomainFigures:
    """A domain's counts: the mean of those at the ends of intervals, and the greatest of all. Then the hard limit and the bound at the end, and the
    least distance of an interval's greatest count to its bound."""

    def __init__(self) -> None:
        self._counts = Held(0)
        self.mean = 0.0
        self.most = self.hard = self.bound = 0
        self.distance: int | None = None

    def take(self, number: int, row: DomainRow) -> None:
        """A row more."""
        self._counts.add(number, row.count)
        self.most = max(self.most, row.most)
        self.hard, self.bound = row.hard, row.bound
        self.distance = row.bound - row.most if self.distance is None else min(self.distance, row.bound - row.most)

    def mark(self) -> None:
        """A task was at work up to here."""
        self.mean = self._counts.mean()


class ContextFigures:
    """A context's pages, and its estimates at the ends of intervals."""

    def __init__(self, ratelimit: int) -> None:
        self._rate_limits = Held(ratelimit)
        self._pages = [0, 0]
        self.dirtied = self.written = self.average = 0
        self.rate_limit, self.mean_rate_limit = ratelimit, float(ratelimit)

    def take(self, number: int, row: ContextRow) -> None:
        """A row more."""
        self._rate_limits.add(number, row.rate_limit)
        self._pages[0] += row.dirtied
        self._pages[1] += row.written
        self.average, self.rate_limit = row.average, row.rate_limit

    def mark(self) -> None:
        """A task was at work up to here."""
        self.dirtied, self.written = self._pages
        self.mean_rate_limit = self._rate_limits.mean()


class Figures:
    """Takes the rows of each interval in turn."""

    def __init__(self, trace: Trace) -> None:
        self.tasks = [TaskFigures() for _ in trace.tasks]
        self.domains = [DomainFigures() for _ in range(trace.domains)]
        self.contexts = [ContextFigures(it.estimate.ratelimit if it.estimate else FIRST_RATE) for it in trace.contexts]
        self.intervals = 0
        """How many begin before the end of the last one with rows."""

        self.until = 0
        """After how many no task does anything more."""

    def take(self, rows: Rows) -> None:
        """The rows of an interval."""
        self.intervals = rows.number + 1
        for domain, of_domain in zip(self.domains, rows.domains):
            domain.take(rows.number, of_domain)
        for context, of_context in zip(self.contexts, rows.contexts):
            context.take(rows.number, of_context)
        for of_task in rows.tasks:
            self.tasks[of_task.task].take(rows.number, of_task)
        if rows.tasks:
            self.until = self.intervals
            for it in (*self.domains, *self.contexts):
                it.mark()
