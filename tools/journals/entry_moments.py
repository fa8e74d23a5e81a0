"""At which moment an entry was made, as far as a journal tells it, and the latest moment of all.

Checks, batches, estimates, published limits, and inodes that are noticed or written for their age tell their moments. A write comes at
the end of its task's pause or rest, or later, a completion at the end of its flight, or later; and no entry comes before an earlier one of
its CPU.
"""
from __future__ import annotations

from .events import Age, Batch, Check, Cpu, Done, Estimate, Limits, Notice, Write
from .listener import Listener
from .trace import RestAction, Trace

OPENING = 1


class EntryMoments(Listener):
    """Takes each event of a journal in turn. `moment` is that of the entry that was taken last; memory is that of the trace."""

    def __init__(self, trace: Trace) -> None:
        self.moment = OPENING
        self.latest = OPENING
        self._cpu = 0
        self._known = [OPENING] * trace.cpus
        self._plans = [Plan(trace, task) for task in range(len(trace.tasks))]
        self._ready = [OPENING + plan.rest for plan in self._plans]
        self._landing = [OPENING] * len(trace.flushers)
        super().__init__({
            Limits: self._limits, Cpu: self._begin_cpu, Write: self._write, Check: self._check, Batch: self._batch,
            Done: self._done, Estimate: self._estimate, Notice: self._notice, Age: self._age,
        })

    def _limits(self, event: Limits) -> None:
        self.moment = event.now
        self.latest = max(self.latest, event.now)

    def _begin_cpu(self, event: Cpu) -> None:
        self._cpu = event.cpu

    def _write(self, event: Write) -> None:
        self._come(self._ready[event.task])
        self._ready[event.task] = self.moment + self._plans[event.task].write()

    def _check(self, event: Check) -> None:
        self._come(event.now)
        self._ready[event.task] = event.now + event.pause + self._plans[event.task].rest

    def _batch(self, event: Batch) -> None:
        self._come(event.now)
        self._landing[event.flusher] = event.until

    def _done(self, event: Done) -> None:
        self._come(self._landing[event.flusher])

    def _estimate(self, event: Estimate) -> None:
        self._come(event.at)

    def _notice(self, event: Notice) -> None:
        self._come(event.since)

    def _age(self, event: Age) -> None:
        self._come(event.now)

    def _come(self, moment: int) -> None:
        """An entry of this moment, or of a later one where its CPU has come further."""
        self.moment = self._known[self._cpu] = max(self._known[self._cpu], moment)
        self.latest = max(self.latest, self.moment)


class Plan:
    """What a task still has to do: how long it rests after the write that it made last."""

    def __init__(self, trace: Trace, task: int) -> None:
        self._actions = trace.works(task)
        self._left = 0
        self._begin()

    def write(self) -> int:
        """One page more was written: the ticks of the rests that follow at once."""
        self._left -= 1
        self.rest = 0
        if self._left <= 0:
            self._begin()
        return self.rest

    def _begin(self) -> None:
        self.rest = 0
        for action in self._actions:
            if not isinstance(action, RestAction):
                self._left = action.pages
                return
            self.rest += action.ticks
