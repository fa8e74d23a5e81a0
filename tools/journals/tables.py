"""Steps, checks, limits, estimates, folds and ages as tables of comma-separated values: one row for each line of the journal."""
from __future__ import annotations

import csv
from collections.abc import Callable
from contextlib import ExitStack
from typing import Any

from program.output import Staging, writing

from .events import Age, Check, Count, Cpu, Estimate, Event, Fold, Limits, Natural, Notice, Read, Signed, Step, Take
from .listener import Listener
from .moments import Moments
from .trace import Trace
from .waiting import WaitingLists

READ = ("thresh", "background", "hard", "version", "count", "period", "part", "whole")


def heads(trace: Trace) -> dict[str, list[str]]:
    """The columns of each table. `time` is in ticks; of a step it is the latest that had come by then, as the journal tells it, and the
    one at which an inode is taken that may not be due isn't told."""
    counts = [f"{what}_{domain}" for domain in range(trace.domains) for what in ("count", "bound")]
    return {
        "steps": ["step", "who", "kind", "time", *counts],
        "checks": ["cpu", "task", "context", "domain", "time", "estimate", "decision", "pause", "left", "dirtied", "allowance",
                   "paused_until", "context_version", "context_count", *(f"global_{name}" for name in READ),
                   *(f"cgroup_{name}" for name in READ)],
        "limits": ["domain", "time", "thresh", "background", "hard"],
        "estimates": ["cpu", "context", "version", "bandwidth", "average", "rate_limit", "balanced", "written", "dirtied", "time"],
        "folds": ["cpu", "counter", "number", "version", "delta"],
        "ages": ["cpu", "flusher", "inode", "what", "time", "due"],
    }


class Tables(Listener):
    """Writes each row as its event comes."""

    def __init__(self, trace: Trace, staging: Staging) -> None:
        self._trace = trace
        self._staging = staging
        self._stack = ExitStack()
        self._moments = Moments(trace)
        self._waiting = WaitingLists(trace)
        self._cpu = 0
        self._reads: list[Read] = []
        self._context = Count(Natural(0), Natural(0), Signed(0))
        super().__init__({
            Cpu: self._begin_cpu, Limits: self._limits, Fold: self._fold, Read: self._read, Count: self._count,
            Check: self._check, Estimate: self._estimate, Notice: self._notice, Age: self._age, Take: self._take, Step: self._step,
        })

    def __enter__(self) -> Tables:
        with writing(self._staging.directory):
            self._rows = {name: self._begin(name, head) for name, head in heads(self._trace).items()}
        return self

    def __exit__(self, *_what: object) -> None:
        with writing(self._staging.directory):
            self._stack.close()

    def take(self, event: Event) -> None:
        """One event more."""
        self._moments.take(event)
        super().take(event)

    def _begin(self, name: str, head: list[str]) -> Callable[[list[Any]], Any]:
        path = self._staging.path(f"{name}.csv")
        file = self._stack.enter_context(open(path, "w", newline="", encoding="ascii"))
        rows = csv.writer(file, lineterminator="\n")
        rows.writerow(head)
        return rows.writerow

    def _begin_cpu(self, event: Cpu) -> None:
        self._cpu = event.cpu

    def _limits(self, event: Limits) -> None:
        self._rows["limits"]([event.domain, event.now, event.thresh, event.background, event.hard])

    def _fold(self, event: Fold) -> None:
        self._rows["folds"]([self._cpu, event.scope.name.lower(), event.number, event.version, event.delta])

    def _read(self, event: Read) -> None:
        self._reads.append(event)

    def _count(self, event: Count) -> None:
        self._context = event

    def _check(self, event: Check) -> None:
        domain = self._trace.contexts[event.context].domain
        row = [self._cpu, event.task, event.context, domain, event.now, event.estimate, event.decision.value, event.pause,
               event.left, event.dirtied, event.allowance, event.paused_until, self._context.version, self._context.count]
        for read in self._reads:
            row += [read.thresh, read.background, read.hard, read.version, read.count, read.period, read.part, read.whole]
        if len(self._reads) == 1:
            row += [""] * len(READ)
        self._reads.clear()
        self._rows["checks"](row)

    def _estimate(self, event: Estimate) -> None:
        self._rows["estimates"]([self._cpu, event.context, event.version, event.bandwidth, event.average, event.rate_limit,
                                 event.balanced, event.written, event.dirtied, event.at])

    def _notice(self, event: Notice) -> None:
        self._age_row(event, "notice", event.since, self._waiting.notice(event))

    def _age(self, event: Age) -> None:
        self._waiting.leave(event)
        self._age_row(event, "age", event.now, event.due)

    def _take(self, event: Take) -> None:
        self._age_row(event, "take", None, self._waiting.leave(event))

    def _age_row(self, event: Notice | Age | Take, what: str, time: int | None, due: int | None) -> None:
        self._rows["ages"]([self._cpu, event.flusher, event.inode, what, time, due])

    def _step(self, event: Step) -> None:
        who = "timer" if event.who is None else event.who
        row = [event.number, who, event.kind.value, self._moments.step(event)]
        for pair in zip(event.counts, event.bounds):
            row += pair
        self._rows["steps"](row)
