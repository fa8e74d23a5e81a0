"""What a journal comes to: by task, by device, by domain, and how it ended."""
from __future__ import annotations

from dataclasses import dataclass, field

from .bound import closer_bound, fixed_bound
from .entry_moments import EntryMoments
from .events import (
    Age, Back, Batch, Bits, Check, Decision, Dirtying, DiskFault, Done, End, Ending, Estimate, Event, Fold, Left, Limits, Notice,
    Period, Read, Return, Step, Strict, Take, Totals, Write,
)
from .listener import Listener
from .trace import Trace


@dataclass
class TaskSummary:
    """What one task did."""

    fresh: int = 0
    already: int = 0
    checks: dict[Decision, int] = field(default_factory=lambda: {each: 0 for each in Decision})
    pauses: int = 0
    longest_pause: int = 0
    paused: int = 0


@dataclass
class DeviceSummary:
    """What the flushers of one device did."""

    batches: int = 0
    pages: int = 0
    longest_flight: int = 0
    completions: int = 0
    faults: int = 0
    given_back: int = 0
    absorbed: int = 0
    estimates: int = 0
    noticed: int = 0
    aged: int = 0
    latest_age: int = 0
    taken: int = 0


@dataclass
class DomainSummary:
    """How near one domain came to its bound.

    Of a journal with steps `greatest` is the greatest exact count, `bound_there` the bound at the first step with it, `closer_there` the
    closer bound there, `least_distance` the least of bound minus count, first at step `nearest`. Without steps `greatest` is the greatest count that a
    check read, and the bound is computed.
    """

    greatest: int = 0
    greatest_at: int = 0
    bound_there: int = 0
    closer_there: int = 0
    least_distance: int | None = None
    nearest: int = 0
    greatest_hard: int = 0
    publications: int = 0
    periods: int = 0
    greatest_read: int | None = None


class Summary(Listener):
    """Takes each event of a journal in turn. Its memory doesn't grow with the journal."""

    def __init__(self, trace: Trace) -> None:
        self.trace = trace
        self.tasks = [TaskSummary() for _ in trace.tasks]
        self.devices = [DeviceSummary() for _ in trace.devices]
        self.domains = [DomainSummary() for _ in range(trace.domains)]
        self.steps = 0
        self.folds = 0
        self.left = {each: 0 for each in Bits}
        self.totals: Totals | None = None
        self.strict: list[Strict] = []
        self.ending: Ending | None = None
        self._opening_lines = trace.domains
        self._fixed = [fixed_bound(trace, domain) for domain in range(trace.domains)]
        self._moments = EntryMoments(trace)
        self._device_of_flusher = [flusher.device for flusher in trace.flushers]
        self._device_of_context = [context.device for context in trace.contexts]
        super().__init__({
            Limits: self._limits, Period: self._period, Write: self._write, Fold: self._fold, Read: self._read,
            Check: self._check, Batch: self._batch, Done: self._done, Estimate: self._estimate, DiskFault: self._fault,
            Back: self._back, Notice: self._notice, Age: self._age, Take: self._taken, Step: self._step, Left: self._page_left,
            Totals: self._total, Strict: self.strict.append, End: self._end,
        })

    def take(self, event: Event) -> None:
        """One event more."""
        self._moments.take(event)
        super().take(event)

    @property
    def latest(self) -> int:
        """The latest moment of an entry."""
        return self._moments.latest

    def bound(self, domain: int) -> int:
        """The bound of a domain at the end, computed from the trace and the greatest hard limit of the journal."""
        return self.domains[domain].greatest_hard + self._fixed[domain]

    def closer(self, domain: int) -> int:
        """The closer bound of a domain at the end, computed likewise."""
        return closer_bound(self.trace, domain, self.domains[domain].greatest_hard)

    def _limits(self, event: Limits) -> None:
        domain = self.domains[event.domain]
        domain.greatest_hard = max(domain.greatest_hard, event.hard)
        if self._opening_lines:
            self._opening_lines -= 1
        else:
            domain.publications += 1

    def _period(self, event: Period) -> None:
        self.domains[event.domain].periods += 1

    def _write(self, event: Write) -> None:
        task = self.tasks[event.task]
        if event.dirtying is Dirtying.FRESH:
            task.fresh += 1
        else:
            task.already += 1

    def _fold(self, _event: Fold) -> None:
        self.folds += 1

    def _read(self, event: Read) -> None:
        domain = self.domains[event.domain]
        if domain.greatest_read is None or event.count > domain.greatest_read:
            domain.greatest_read = event.count

    def _check(self, event: Check) -> None:
        task = self.tasks[event.task]
        task.checks[event.decision] += 1
        if event.pause:
            task.pauses += 1
            task.paused += event.pause
            task.longest_pause = max(task.longest_pause, event.pause)

    def _batch(self, event: Batch) -> None:
        device = self.devices[self._device_of_flusher[event.flusher]]
        device.batches += 1
        device.pages += event.pages
        device.longest_flight = max(device.longest_flight, event.until - event.now)

    def _done(self, event: Done) -> None:
        self.devices[self._device_of_flusher[event.flusher]].completions += 1

    def _estimate(self, event: Estimate) -> None:
        self.devices[self._device_of_context[event.context]].estimates += 1

    def _fault(self, event: DiskFault) -> None:
        self.devices[self._device_of_flusher[event.flusher]].faults += 1

    def _back(self, event: Back) -> None:
        device = self.devices[self._device_of_flusher[event.flusher]]
        device.given_back += 1
        if event.how is Return.ABSORBED:
            device.absorbed += 1

    def _notice(self, event: Notice) -> None:
        self.devices[self._device_of_flusher[event.flusher]].noticed += 1

    def _age(self, event: Age) -> None:
        device = self.devices[self._device_of_flusher[event.flusher]]
        device.aged += 1
        device.latest_age = max(device.latest_age, event.now - event.due)

    def _taken(self, event: Take) -> None:
        self.devices[self._device_of_flusher[event.flusher]].taken += 1

    def _step(self, event: Step) -> None:
        self.steps = event.number
        for number, (domain, count, bound) in enumerate(zip(self.domains, event.counts, event.bounds)):
            if count > domain.greatest or not domain.greatest_at:
                domain.greatest, domain.greatest_at, domain.bound_there = count, event.number, bound
                domain.closer_there = closer_bound(self.trace, number, bound - self._fixed[number])
            distance = bound - count
            if domain.least_distance is None or distance < domain.least_distance:
                domain.least_distance, domain.nearest = distance, event.number

    def _page_left(self, event: Left) -> None:
        self.left[event.bits] += 1

    def _total(self, event: Totals) -> None:
        self.totals = event

    def _end(self, event: End) -> None:
        self.ending = event.ending
