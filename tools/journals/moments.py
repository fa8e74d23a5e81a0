"""At which moment a step was made, as far as a journal tells it.

A step's line has no moment, but entries have (`entry_moments`), each write and each completion is a step of its CPU in the order of
that CPU's entries, and the clock never goes back. So the moment of a step is at least the latest that was told by then: the moment of
a check at its last step, of a write, of a completion, of published limits at the timer's load of the count for them. In a replay
the clock moves only to the ends of pauses, rests, flights and the timer's waits, but for `tick` lines: each step that changes a count
has just that moment, save where a `tick` let the clock pass it. On the CPU of a strict device's flusher a check may be told some steps too
early, as `check_steps` says, and so may its moment.

Memory: two numbers for each moment at which a CPU wrote or completed pages, and for each at which limits were published, and what
`check_steps` keeps.
"""
from __future__ import annotations

from array import array

from .check_steps import CheckSteps, Found
from .entry_moments import OPENING, EntryMoments
from .events import Check, Cpu, Done, Estimate, Event, Limits, Read, Step, StepKind, Write
from .listener import Listener
from .trace import Trace


class Told:
    """Moments that are known from the `n`-th of a CPU's steps of one kind on, in order."""

    def __init__(self) -> None:
        self.entries = 0
        self.steps = 0
        self.places = array("q")
        self.moments = array("q")
        self.cursor = 0

    def entry(self, moment: int) -> None:
        """One more entry, which is of a moment, or of a later one."""
        self.entries += 1
        if not self.moments or moment > self.moments[-1]:
            self.places.append(self.entries)
            self.moments.append(moment)

    def step(self) -> int:
        """One more step: the moment that is told of it, or 0 where that is no later one."""
        self.steps += 1
        if self.cursor == len(self.places) or self.places[self.cursor] != self.steps:
            return 0
        self.cursor += 1
        return self.moments[self.cursor - 1]


class Moments(Listener):
    """Takes each event of a journal in turn, and gives the moment of each step.

    `found` is the check, or the estimate, that ends with the step that was taken last.
    """

    def __init__(self, trace: Trace) -> None:
        self.now = OPENING
        self.writes = [Told() for _ in range(trace.cpus)]
        self.completions = [Told() for _ in range(trace.cpus)]
        self.publications = Told()
        self.found: Found | None = None
        self.entries = EntryMoments(trace)
        self._check_steps = [CheckSteps(trace.domains) for _ in range(trace.cpus)]
        self._weighed = weighed_contexts(trace)
        self._reads = 0
        self._cpu = 0
        self._opening_lines = trace.domains
        super().__init__({
            Limits: self._limits, Write: self._write, Check: self._check, Done: self._done, Estimate: self._estimate,
            Cpu: self._begin_cpu, Read: self._read,
        })

    def take(self, event: Event) -> None:
        """One event more."""
        self.entries.take(event)
        super().take(event)

    def step(self, step: Step) -> int:
        """The latest moment that had come, as is known, when the step was made."""
        kind, who = step.kind, step.who
        told = 0
        self.found = None
        if who is None:
            if kind is StepKind.COUNT:
                told = self.publications.step()
        elif kind is StepKind.DIRTY:
            told = self.writes[who].step()
        elif kind is StepKind.COMPLETE:
            told = self.completions[who].step()
        if who is not None:
            self.found = self._check_steps[who].step(kind)
            if self.found:
                told = self.found.now
        if told > self.now:
            self.now = told
        return self.now

    def _limits(self, event: Limits) -> None:
        if self._opening_lines:
            self._opening_lines -= 1
        else:
            self.publications.entry(event.now)

    def _begin_cpu(self, event: Cpu) -> None:
        self._cpu = event.cpu

    def _read(self, _event: Read) -> None:
        self._reads += 1

    def _estimate(self, event: Estimate) -> None:
        self._check_steps[self._cpu].estimate(event.at, event.context, self._weighed[event.context])

    def _write(self, _event: Write) -> None:
        self._check_steps[self._cpu].page()
        self.writes[self._cpu].entry(self.entries.moment)

    def _check(self, event: Check) -> None:
        self._check_steps[self._cpu].check(event, self._reads)
        self._reads = 0

    def _done(self, _event: Done) -> None:
        self._check_steps[self._cpu].page()
        self.completions[self._cpu].entry(self.entries.moment)


def weighed_contexts(trace: Trace) -> list[int]:
    """Of each context how many contexts of its device a flusher weighs at the end of a look: all of a strict device, else none."""
    devices = [context.device for context in trace.contexts]
    return [devices.count(device) * trace.devices[device].is_strict for device in devices]
