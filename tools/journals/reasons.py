"""The numbers behind each check of a journal.

A check's line tells the task's numbers after it. Those before it follow from the task's earlier lines and from those of its CPU. Where
a rest comes after a task's last write, it isn't told when its pages become those of others. So a check is explained only where the
laws, asked with what was found, decide just what the line tells.
"""
from __future__ import annotations

from bisect import bisect_right
from collections.abc import Iterable, Iterator
from dataclasses import dataclass

from laws.allowance import FIRST_ALLOWANCE, page_done
from laws.counters import error_of
from laws.decision import Task, Verdict
from laws.estimate import FIRST_RATE
from laws.limits import ratelimit_pages
from laws.sentences import Asked, lines
from laws.strict import decide_for

from . import events
from .domain_reads import domain_read
from .events import Dirtying, Event
from .trace import Trace, WriteAction

NOT_TOLD = "the numbers that its task had before aren't told in full"

Rates = dict[tuple[int, int], tuple[int, int]]
"""Average and rate limit of an estimate, by its context and version."""


@dataclass(frozen=True)
class Reason:
    """What a check was asked with, and what the laws decide of that: nothing where its line tells something else."""

    asked: Asked
    verdict: Verdict | None

    def lines(self) -> Iterator[str]:
        """The numbers, one line each."""
        if self.verdict:
            yield from lines(self.asked, self.verdict)
        else:
            yield NOT_TOLD


@dataclass
class Writer:
    """A task in a context, as far as its lines have told it."""

    task: Task
    left: int
    exceeded: bool = False


@dataclass
class CpuNumbers:
    """What a CPU counts for its writers."""

    since: int = 0
    leaks: int = 0


def rates_of(journal: Iterable[Event]) -> Rates:
    """The estimates of a journal."""
    return {(event.context, event.version): (event.average, event.rate_limit) for event in journal
            if isinstance(event, events.Estimate)}


class Reasons:
    """Takes the events of a journal in turn, and explains each check."""

    def __init__(self, trace: Trace, rates: Rates) -> None:
        self._trace = trace
        self._rates = rates
        self._error = error_of(trace.cpus)
        self._firsts = [inode.first for inode in trace.inodes]
        self._first_rates = [(it.estimate.average, it.estimate.ratelimit) if it.estimate else (FIRST_RATE, FIRST_RATE)
                             for it in trace.contexts]
        self._check_after = 0
        self._cpus = [CpuNumbers() for _ in range(trace.cpus)]
        self._cpu = self._cpus[0]
        self._writers: dict[tuple[int, int], Writer] = {}
        self._to_write = {task: sum(it.pages for it in trace.actions.get(task, ()) if isinstance(it, WriteAction))
                          for task in range(len(trace.tasks))}
        self._reads: list[events.Read] = []
        self._pages = 0

    def of(self, event: Event) -> Iterator[str]:
        """The lines that explain an event: none but for a check."""
        reason = self.reason(event)
        return iter(()) if reason is None else reason.lines()

    def reason(self, event: Event) -> Reason | None:
        """What is behind an event, which is to be taken once: nothing but for a check."""
        if isinstance(event, events.Limits) and not self._check_after and event.domain == 0:
            self._check_after = ratelimit_pages(event.thresh, self._trace.cpus)
        elif isinstance(event, events.Cpu):
            self._cpu = self._cpus[event.cpu]
        elif isinstance(event, events.Write):
            self._write(event)
        elif isinstance(event, events.Read):
            self._reads.append(event)
        elif isinstance(event, events.Count):
            self._pages = max(event.count, 0)
        elif isinstance(event, events.Check):
            reason = self._check(event)
            self._reads = []
            return reason
        return None

    def _writer(self, task: int, context: int) -> Writer:
        left = min(FIRST_ALLOWANCE, self._trace.cap)
        return self._writers.setdefault((task, context), Writer(Task(0, FIRST_ALLOWANCE, 0), left))

    def _write(self, event: events.Write) -> None:
        self._to_write[event.task] -= 1
        is_due = False
        if event.dirtying is Dirtying.FRESH:
            it, cpu = self._writer(event.task, self._context(event.page)), self._cpu
            it.left -= 1
            dirtied, cpu.since, cpu.leaks, is_due = page_done(
                it.task.dirtied, it.task.allowance, it.exceeded, it.left, cpu.since, cpu.leaks, self._check_after)
            it.task = it.task._replace(dirtied=dirtied)
        if not self._to_write[event.task] and not is_due:
            self._end(event.task)

    def _end(self, task: int) -> None:
        for (of, _), writer in self._writers.items():
            if of == task:
                self._cpu.leaks += writer.task.dirtied

    def _context(self, page: int) -> int:
        return self._trace.inodes[bisect_right(self._firsts, page) - 1].context

    def _check(self, event: events.Check) -> Reason:
        writer = self._writer(event.task, event.context)
        reads = [domain_read(self._trace, read, event.context) for read in self._reads]
        average, rate_limit = self._rates.get((event.context, event.estimate), self._first_rates[event.context])
        is_strict = self._trace.is_strict(event.context)
        asked = Asked(reads, self._pages, average, rate_limit, writer.task, event.now, self._error, is_strict)
        verdict = decide_for(is_strict, reads, self._pages, average, rate_limit, writer.task, event.now, self._error, self._trace.cap)
        told = Task(event.dirtied, event.allowance, event.paused_until)
        wanted = (event.decision.value, event.pause, event.left, told)
        is_told = (verdict.kind.value, verdict.pause, verdict.left, verdict.task) == wanted
        writer.task, writer.left, writer.exceeded = told, event.left, verdict.exceeded
        if not self._to_write[event.task] and event.decision is not events.Decision.WAIT:
            self._end(event.task)
        return Reason(asked, verdict if is_told else None)
