"""What each line of a journal says, in words."""
from __future__ import annotations

from collections.abc import Callable
from typing import Any

from . import events
from .events import Bits, Decision, Dirtying, Ending, Event, Fold, Return, Scope, Step, StepKind
from .trace import Trace
from .turns import Turns
from .waiting import WaitingLists

DECISIONS = {
    Decision.FREE: "free, since no domain has more than its freerun",
    Decision.GO: "go on at its rate",
    Decision.EXEMPT: "exempt: its rate is 0, but its context's count is so small that it may be all error",
    Decision.WAIT: "wait: its rate is 0",
}

STRICT_FREE = "free, since its context has at most its own freerun, and no domain more than its hard limit"

ENDINGS = {
    Ending.DONE: "the run has ended by itself",
    Ending.HALTED: "a CPU was stopped after the steps that it had",
    Ending.SPENT: "the most steps were made, and the run had not ended",
    Ending.FAULTED: "the disk of a flusher failed eight times",
}

MOST_FAULTS = 8
"""Batches of a flusher that its disk fails to write until it does nothing more."""

RETURNS = {
    Return.DIRTY: "it is dirty as before",
    Return.ABSORBED: "it had been dirtied again, and is dirty once",
}

BITS = {Bits.DIRTY: "dirty", Bits.WRITEBACK: "under writeback", Bits.BOTH: "both dirty and under writeback"}


class Sentences:
    """Gives a sentence for each event in turn."""

    def __init__(self, trace: Trace) -> None:
        self._trace = trace
        self._cpu = 0
        self._opening_lines = trace.domains
        self._turns = Turns(trace)
        self._counts: tuple[int, ...] = (0,) * trace.domains
        self._faults = [0] * len(trace.flushers)
        self._waiting = WaitingLists(trace)
        self._says: dict[type, Callable[[Any], str]] = {
            events.Timer: self._timer, events.Limits: self._limits, events.Period: self._period, events.Cpu: self._begin_cpu,
            events.Write: self._write, events.Fold: self._fold, events.Read: self._read, events.Count: self._count,
            events.Check: self._check, events.Claim: self._claim, events.Batch: self._batch, events.Done: self._done,
            events.Share: self._share, events.Estimate: self._estimate, events.DiskFault: self._fault,
            events.Back: self._back, events.Notice: self._notice, events.Age: self._age, events.Take: self._take,
            events.Steps: self._steps, events.Step: self._step, events.Left: self._left, events.Census: self._census,
            events.Totals: self._totals, events.Strict: self._strict, events.End: self._end,
        }

    def of(self, event: Event) -> str:
        """What the line says."""
        return self._says[type(event)](event)

    # names of things

    def _domain(self, domain: int) -> str:
        return f"domain {domain} (a cgroup)" if domain else "domain 0 (the global one)"

    def _device(self, flusher: int) -> str:
        return f"device {self._trace.flushers[flusher].device}"

    # the timer's part

    def _timer(self, _event: events.Timer) -> str:
        return "the timer's part: first the limits at the opening, then those that it published"

    def _limits(self, event: events.Limits) -> str:
        came = "opens with" if self._opening_lines else "gets"
        self._opening_lines = max(0, self._opening_lines - 1)
        return (f"{self._domain(event.domain)} {came} a threshold of {event.thresh}, a background threshold of {event.background} "
                f"and a hard limit of {event.hard} pages, at moment {event.now}")

    def _period(self, event: events.Period) -> str:
        return f"{self._domain(event.domain)} gets a new period, by {event.passed}: its events are halved so many times"

    # a CPU's part

    def _begin_cpu(self, event: events.Cpu) -> str:
        self._cpu = event.cpu
        return f"the entries of CPU {event.cpu}, in the order in which it made them"

    def _write(self, event: events.Write) -> str:
        self._turns.pages.entry(StepKind.DIRTY, self._cpu, event.page)
        found = "was not dirty" if event.dirtying is Dirtying.FRESH else "was dirty already"
        return f"task {event.task} dirtied {self._turns.page(event.page)}, which {found}"

    def _fold(self, event: Fold) -> str:
        whose = "domain" if event.scope is Scope.DOMAIN else "context"
        return (f"the CPU's own number of {whose} {event.number}, {pages(event.delta)}, went into its shared count, "
                f"which is now at version {event.version}")

    def _read(self, event: events.Read) -> str:
        return (f"a check reads {self._domain(event.domain)}: threshold {event.thresh}, background {event.background}, hard limit "
                f"{event.hard}, of version {event.triple}; shared count {event.count} at version {event.version}; the context's fraction is "
                f"{event.part} of {event.whole} in period {event.period}")

    def _count(self, event: events.Count) -> str:
        return f"and the shared count of context {event.context}: {event.count} at version {event.version}"

    def _check(self, event: events.Check) -> str:
        is_to_wait = event.decision is Decision.WAIT
        pause = f"it pauses {ticks(event.pause)}, until {event.now + event.pause}" if event.pause else "it doesn't pause"
        may = "and has then to be checked again" if is_to_wait else f"and may then dirty {pages(event.left)}"
        is_by_own = event.decision is Decision.FREE and self._trace.is_strict(event.context)
        decision = STRICT_FREE if is_by_own else DECISIONS[event.decision]
        return (f"task {event.task} in context {event.context} at moment {event.now}, by estimate {event.estimate}: "
                f"{decision}; {pause}, {may}; {event.dirtied} dirtied since its last pause, an allowance of "
                f"{event.allowance}")

    def _claim(self, event: events.Claim) -> str:
        self._turns.pages.entry(StepKind.CLAIM, self._cpu, event.page)
        return f"flusher {event.flusher} took {self._turns.page(event.page)} from dirty to under writeback"

    def _batch(self, event: events.Batch) -> str:
        return (f"flusher {event.flusher} gave {pages(event.pages)} to {self._device(event.flusher)} at moment {event.now}; they "
                f"are written at {event.until}")

    def _done(self, event: events.Done) -> str:
        self._turns.pages.entry(StepKind.COMPLETE, self._cpu, event.page)
        return f"flusher {event.flusher} completed {self._turns.page(event.page)}"

    def _share(self, event: events.Share) -> str:
        return f"in {self._domain(event.domain)}, the written pages of context {event.context} grow by {event.pages}"

    def _estimate(self, event: events.Estimate) -> str:
        return (f"context {event.context} gets its estimate {event.version} at moment {event.at}: bandwidth {event.bandwidth}, on "
                f"average {event.average}, rate limit {event.rate_limit}, balanced {event.balanced} pages a second; "
                f"{event.written} written, {event.dirtied} dirtied so far")

    def _fault(self, event: events.DiskFault) -> str:
        self._faults[event.flusher] += 1
        is_last = self._faults[event.flusher] >= MOST_FAULTS
        follows = "for the eighth time: the flusher does nothing more" if is_last else "which the flusher gives back"
        return f"the disk of flusher {event.flusher} failed on {pages(event.pages)}, {follows}"

    def _back(self, event: events.Back) -> str:
        self._turns.pages.entry(StepKind.BACK, self._cpu, event.page)
        return f"flusher {event.flusher} gave {self._turns.page(event.page)} back: {RETURNS[event.how]}"

    def _notice(self, event: events.Notice) -> str:
        return (f"flusher {event.flusher} noticed inode {event.inode} at moment {event.since}, which now waits in its list and is due "
                f"at {self._waiting.notice(event)}")

    def _age(self, event: events.Age) -> str:
        self._waiting.leave(event)
        return (f"flusher {event.flusher} took inode {event.inode} for its age, the first of its list, at moment {event.now}: it was "
                f"due at {event.due}")

    def _take(self, event: events.Take) -> str:
        due = self._waiting.leave(event)
        is_due = "" if due is None else f", which is due at {due}"
        return f"flusher {event.flusher} took inode {event.inode}, the first of its list{is_due}"

    # the steps

    def _steps(self, _event: events.Steps) -> str:
        return "the steps: number, who, what, then the exact count and the bound of each domain"

    def _step(self, event: Step) -> str:
        return f"{self._turns.words(event)}{self._changes(event)}"

    def _changes(self, event: Step) -> str:
        changes = [f"; domain {domain} has {pages(count)}, {bound - count} below its bound"
                   for domain, (before, count, bound) in enumerate(zip(self._counts, event.counts, event.bounds))
                   if before != count]
        self._counts = event.counts
        return "".join(changes)

    # the end

    def _left(self, event: events.Left) -> str:
        return f"{self._turns.page(event.page)} is left {BITS[event.bits]}"

    def _census(self, event: events.Census) -> str:
        return f"{pages(event.dirty)} left dirty, {event.writeback} under writeback"

    def _totals(self, event: events.Totals) -> str:
        return f"fresh writes in all: {event.fresh}, completions: {event.done}"

    def _strict(self, event: events.Strict) -> str:
        return (f"context {event.context}, of a strict device, had at most {pages(event.most)} after a step, "
                f"{event.bound - event.most} below its bound")

    def _end(self, event: events.End) -> str:
        return ENDINGS[event.ending]


def ticks(many: int) -> str:
    """So many ticks."""
    return counted(many, "tick")


def pages(many: int) -> str:
    """So many pages."""
    return counted(many, "page")


def counted(many: int, thing: str) -> str:
    """So many things of a sort."""
    return f"1 {thing}" if many == 1 else f"{many} {thing}s"
