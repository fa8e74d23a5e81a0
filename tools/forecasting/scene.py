"""What is drawn of a forecast, kept while it is read, in bounded memory. Places are moments."""
from __future__ import annotations

from journals.series import Curve
from journals.setpoints import freerun, setpoint
from journals.trace import Trace
from laws.limits import thresholds

from .events import Rows
from .figures import SECOND

MOST_PARTS = 1024
"""As many parts of time as a picture can show of a task."""


class DomainScene:
    """A domain by intervals: its count at their ends, the greatest in each, its hard limit, its bound, and its setpoint where the trace tells it."""

    def __init__(self) -> None:
        self.counts, self.most, self.hard, self.bounds, self.setpoint = (Curve() for _ in range(5))
        self.count = 0


class PausedParts:
    """The ticks that a task paused, by where its pauses begin. Where there are too many parts of time neighbours are put together."""

    def __init__(self) -> None:
        self.width = 1
        self.parts: dict[int, int] = {}

    def add(self, interval: int, ticks: int) -> None:
        """The ticks of an interval."""
        part = interval // self.width
        self.parts[part] = self.parts.get(part, 0) + ticks
        while len(self.parts) > MOST_PARTS:
            self.width *= 2
            finer, self.parts = self.parts, {}
            for at, many in finer.items():
                self.parts[at // 2] = self.parts.get(at // 2, 0) + many


class ForecastScene:
    """Takes the rows of each interval in turn."""

    def __init__(self, trace: Trace) -> None:
        self.trace = trace
        self.every = 1
        self.domains = [DomainScene() for _ in range(trace.domains)]
        self.rate_limits: dict[int, Curve] = {}
        self.bandwidths: dict[int, Curve] = {}
        self.paused: dict[int, PausedParts] = {}
        self.intervals = 0

    @property
    def last(self) -> float:
        """Where the axis ends, in seconds."""
        return self.place(self.intervals * self.every)

    def place(self, moment: int) -> float:
        """Where a moment stands on the axis, in seconds."""
        return moment / SECOND

    def take(self, rows: Rows) -> None:
        """The rows of an interval. Where none stood before them the counts were as they had been."""
        begin, end = rows.number * self.every, (rows.number + 1) * self.every
        for number, (domain, row) in enumerate(zip(self.domains, rows.domains)):
            if rows.number > self.intervals:
                domain.most.add(self.intervals * self.every, domain.count)
            domain.count = row.count
            domain.most.add(begin, row.most)
            domain.counts.add(end, row.count)
            domain.hard.add(end, row.hard)
            domain.bounds.add(end, row.bound)
            if number == 0:
                domain.setpoint.add(end, setpoint(*global_thresholds(self.trace, end), row.hard))
        for at in rows.contexts:
            self.rate_limits.setdefault(at.context, Curve()).add(end, at.rate_limit)
            self.bandwidths.setdefault(at.context, Curve()).add(end, at.average)
        for task in rows.tasks:
            self.paused.setdefault(task.task, PausedParts()).add(rows.number, task.ticks)
        self.intervals = rows.number + 1

    def thresholds(self) -> list[tuple[float, int, int, int]]:
        """From which second on the global domain has which threshold, freerun and background threshold."""
        found = []
        for tick, _ in self.trace.avail:
            thresh, background = global_thresholds(self.trace, tick + 1)
            found.append((self.place(tick), thresh, freerun(thresh, background), background))
        return found


def global_thresholds(trace: Trace, moment: int) -> tuple[int, int]:
    """Threshold and background threshold of the global domain before a moment, by the available pages of the trace."""
    available = next((pages for tick, pages in reversed(trace.avail) if tick < moment), 0)
    return thresholds(trace.settings, available)
