"""What a forecast of a trace did, to stand beside what a kernel did.

It is looked at from the interval in which a writer is paused first to the last one with a check of a writer. A count and a rate limit stand at the
end of each interval. Of pauses an interval tells how many begin in it, their ticks and the longest.
"""
from __future__ import annotations

from dataclasses import dataclass, field

from forecasting.events import Rows, TaskRow
from forecasting.figures import SECOND
from forecasting.reader import ForecastReader
from forecasting.scene import global_thresholds
from journals.setpoints import freerun, setpoint
from journals.trace import Trace

from .beside import Span


@dataclass
class ForecastSpan(Span):
    """Like a replay's, with what intervals tell of pauses: task, begin and row of each."""

    parts: list[tuple[str, float, TaskRow]] = field(default_factory=list)
    every: float = 1.0
    """Seconds of an interval."""

    def paused(self) -> float:
        """Which part of its time a writer is paused, in percent, of all writers. A pause that goes on after the span counts whole."""
        return 100 * sum(row.ticks for *_, row in self.parts) / SECOND / self.seconds / max(len(self.writers), 1)

    def fallen(self) -> None:
        """Not each estimate is told."""

    def many(self) -> int:
        """Pauses of all writers."""
        return sum(row.pauses for *_, row in self.parts)

    def pause(self) -> float:
        """The mean pause, in seconds."""
        return sum(row.ticks for *_, row in self.parts) / SECOND / max(self.many(), 1)

    def longest(self) -> float:
        """The longest pause, in seconds."""
        return max((row.longest for *_, row in self.parts), default=0) / SECOND

    def at_rate_of_0(self) -> None:
        """Not told."""

    def bars(self) -> list[tuple[str, float, float, float]]:
        """A bar for each interval, as wide as its pauses are long together, for their mean."""
        return [(task, begin, min(row.ticks / SECOND, self.every), row.ticks / SECOND / row.pauses) for task, begin, row in self.parts if row.pauses]


class Taking:
    """Takes the rows of each interval, and makes the span of those from the first pause of a writer to the last check of one."""

    def __init__(self, trace: Trace, every: int, longest: float | None) -> None:
        self.trace, self.every = trace, every
        self.most = None if longest is None else round(SECOND * longest)
        writers = sorted(trace.paces) or list(range(len(trace.tasks)))
        self.writers = set(writers)
        self.contexts = {context for task, context in trace.writers() if task in self.writers}
        self.span = ForecastSpan("forecast", [f"task {number}" for number in writers], every=every / SECOND)
        self.begin: int | None = None
        self.before: Rows | None = None
        self.pages = 0
        self.waiting: list[Rows] = []

    def take(self, rows: Rows) -> None:
        """The rows of an interval."""
        own = [row for row in rows.tasks if row.task in self.writers]
        if self.begin is None and any(row.pauses for row in own):
            self.begin = rows.number * self.every
            self.at(0, self.before or rows)
        if self.begin is not None and (self.most is None or rows.number * self.every - self.begin < self.most):
            self.add(rows, own)
        self.before = rows

    def add(self, rows: Rows, own: list[TaskRow]) -> None:
        """An interval of the span, or one that may be after it, as long as no writer is checked any more."""
        self.waiting.append(rows)
        if not any(row.checks for row in own):
            return
        begin = self.since_begin(rows)
        self.span.parts += [(f"task {row.task}", begin, row) for row in own]
        self.span.checks += sum(row.checks for row in own)
        for it in self.waiting:
            self.pages += sum(row.written for row in it.contexts)
            self.at(self.since_begin(it) + self.span.every, it)
        self.waiting.clear()

    def since_begin(self, rows: Rows) -> float:
        """When an interval begins, in seconds of the span."""
        return (rows.number * self.every - (self.begin or 0)) / SECOND

    def at(self, time: float, rows: Rows) -> None:
        """How all stands at a time."""
        self.span.levels.append((time, rows.domains[0].count))
        for row in rows.contexts:
            if row.context in self.contexts:
                self.span.rate_limits.setdefault(f"context {row.context}", []).append((time, row.rate_limit))
        thresh, background = global_thresholds(self.trace, (rows.number + 1) * self.every)
        hard = rows.domains[0].hard
        self.span.limits = (freerun(thresh, background), setpoint(thresh, background, hard), thresh, hard)

    def taken(self) -> ForecastSpan:
        """The span."""
        self.span.written = self.pages / self.span.seconds
        return self.span


def of_forecast(trace: Trace, reader: ForecastReader, longest: float | None = None) -> ForecastSpan:
    """What a forecast did, in at most so many seconds."""
    taking: Taking | None = None
    for rows in reader.intervals():
        taking = taking or Taking(trace, reader.every, longest)
        taking.take(rows)
    return (taking or Taking(trace, 1, longest)).taken()
