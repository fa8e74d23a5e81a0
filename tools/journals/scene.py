"""What is drawn of a journal, kept while it is read: curves and bars, over time or over steps.

A step's moment is the latest that had come by then, as the journal tells it. Over steps, a moment stands at its first step, and a
pause from the last step of its check to the first step at its end or later.
"""
from __future__ import annotations

from collections.abc import Callable
from dataclasses import dataclass

from laws.strict import own_freerun

from .check_steps import Found
from .domain_reads import domain_read
from .events import Age, Check, Count, Decision, End, Estimate, Event, Limits, Notice, Read, Step, Take
from .listener import Listener
from .moments import OPENING, Moments
from .series import Bars, Curve, Passage, Series
from .setpoints import freerun, setpoint
from .trace import Trace

GREATEST_MOMENT = 1 << 62
"""After all."""


@dataclass
class Nearest:
    """Where the count was nearest to the bound, on the axis that is drawn."""

    count: int
    bound: int
    place: int

    @property
    def distance(self) -> int:
        """Pages between both."""
        return self.bound - self.count


class OwnScene:
    """What is drawn of a context of a strict device in a domain, as checks read it: its count, its threshold, its freerun."""

    def __init__(self, curve: Callable[[], Series]) -> None:
        self.reads = curve()
        self.thresh = curve()
        self.freerun = curve()


class DomainScene:
    """What is drawn of one domain: limits by moments, the count and the bound on the axis that is drawn."""

    def __init__(self, curve: Callable[[], Series]) -> None:
        self.counts = curve()
        self.bounds = curve()
        self.reads = curve()
        self.hard = curve()
        self.thresh = curve()
        self.setpoint = curve()
        self.freerun = curve()
        self.background = curve()
        self.greatest_hard = 0
        self.nearest: Nearest | None = None

    def publish(self, event: Limits) -> None:
        """New limits."""
        thresh, background, hard = event.thresh, event.background, event.hard
        self.hard.add(event.now, hard)
        self.thresh.add(event.now, thresh)
        self.setpoint.add(event.now, setpoint(thresh, background, hard))
        self.freerun.add(event.now, freerun(thresh, background))
        self.background.add(event.now, background)
        self.greatest_hard = max(self.greatest_hard, hard)

    def step(self, place: int, count: int, bound: int) -> None:
        """The count and the bound after a step."""
        self.counts.add(place, count)
        self.bounds.add(place, bound)
        if self.nearest is None or bound - count < self.nearest.distance:
            self.nearest = Nearest(count, bound, place)


class Scene(Listener):
    """Takes each event of a journal in turn, and keeps what the pictures need. Its curves, each made by `curve`, don't grow with the
    journal."""

    def __init__(self, trace: Trace, is_over_steps: bool, curve: Callable[[], Series] = Curve) -> None:
        self.trace = trace
        self.is_over_steps = is_over_steps
        self.domains = [DomainScene(curve) for _ in range(trace.domains)]
        self.pauses: dict[tuple[int, int, Decision], Bars] = {}
        self.rate_limits: dict[int, Series] = {}
        self.bandwidths: dict[int, Series] = {}
        self.own: dict[tuple[int, int], OwnScene] = {}
        self.waiting: dict[tuple[int, int], Series] = {}
        self.passage = Passage()
        self.steps = 0
        self.opening = OPENING
        self.ending = ""
        self._paused: dict[tuple[int, int], int] = {}
        self._last_pause: dict[tuple[int, int], int] = {}
        self._inodes: dict[tuple[int, int], int] = {}
        self._moments = Moments(trace)
        self._reads: list[Read] = []
        self._pages = 0
        self._running: list[tuple[int, Found]] = []
        self._curve = curve
        super().__init__({
            Limits: self._limits, Read: self._read, Count: self._count, Check: self._check, Estimate: self._estimate,
            Notice: self._notice, Age: self._leave, Take: self._leave, Step: self._step, End: self._end,
        })

    def take(self, event: Event) -> None:
        """One event more."""
        self._moments.take(event)
        super().take(event)

    @property
    def first(self) -> int:
        """Where the axis begins."""
        return 0 if self.is_over_steps else self.opening

    @property
    def last(self) -> int:
        """Where the axis ends: at the last step, or at the latest moment of an entry."""
        return self.steps if self.is_over_steps else self._moments.entries.latest

    def place(self, moment: int) -> int:
        """Where a moment stands on the axis."""
        return self.passage.step(moment) if self.is_over_steps else moment

    def paused(self, task: int, domain: int) -> float:
        """The share of the axis that a task paused in contexts of a domain. What is left of a pause when the run ends doesn't count."""
        paused = sum(length - max(0, self._last_pause[of, where] - self.last)
                     for (of, where), length in self._paused.items() if of == task and domain in (0, where))
        return paused / max(self.last - self.first, 1)

    def _limits(self, event: Limits) -> None:
        if not self.domains[0].thresh:
            self.opening = event.now
        self.domains[event.domain].publish(event)

    def _read(self, event: Read) -> None:
        self._reads.append(event)

    def _count(self, event: Count) -> None:
        self._pages = max(event.count, 0)

    def _check(self, event: Check) -> None:
        for read in self._reads:
            self.domains[read.domain].reads.add(event.now, read.count)
            if self.trace.is_strict(event.context):
                self._weigh(read, event)
        self._reads.clear()
        if event.pause and not self.is_over_steps:
            self._pause(event.task, event.context, event.decision, event.now, event.now + event.pause)

    def _weigh(self, read: Read, event: Check) -> None:
        found = domain_read(self.trace, read, event.context)
        own = self.own.setdefault((event.context, read.domain), OwnScene(self._curve))
        own.reads.add(event.now, self._pages)
        own.thresh.add(event.now, found.context_limit)
        own.freerun.add(event.now, own_freerun(found))

    def _pause(self, task: int, context: int, decision: Decision, begin: int, end: int) -> None:
        domain = self.trace.contexts[context].domain
        self.pauses.setdefault((task, domain, decision), Bars()).add(begin, end)
        self._paused[task, domain] = self._paused.get((task, domain), 0) + end - begin
        self._last_pause[task, domain] = end

    def _estimate(self, event: Estimate) -> None:
        self.rate_limits.setdefault(event.context, self._curve()).add(event.at, event.rate_limit)
        self.bandwidths.setdefault(event.context, self._curve()).add(event.at, event.average)

    def _notice(self, event: Notice) -> None:
        self._wait(event.flusher, event.inode, 1)

    def _leave(self, event: Age | Take) -> None:
        self._wait(event.flusher, event.inode, -1)

    def _wait(self, flusher: int, inode: int, change: int) -> None:
        own = self.trace.contexts[self.trace.inodes[inode].context].domain
        for domain in {0, own}:
            of = flusher, domain
            self._inodes[of] = max(self._inodes.get(of, 0) + change, 0)
            self.waiting.setdefault(of, self._curve()).add(self._moments.entries.moment, self._inodes[of])

    def _step(self, event: Step) -> None:
        before = self._moments.now
        moment = self._moments.step(event)
        self.steps = event.number
        if self.is_over_steps:
            self.passage.add(moment, event.number)
            if moment > before:
                self._end_pauses(moment)
            found = self._moments.found
            if found and found.pause:
                self._running.append((event.number, found))
        place = event.number if self.is_over_steps else moment
        for domain, count, bound in zip(self.domains, event.counts, event.bounds):
            domain.step(place, count, bound)

    def _end_pauses(self, moment: int) -> None:
        """Those that have ended by the moment, which came with the step that was made last."""
        going_on = []
        for begin, found in self._running:
            if found.now + found.pause <= moment:
                self._pause(found.task, found.context, found.decision, begin, self.steps)
            else:
                going_on.append((begin, found))
        self._running = going_on

    def _end(self, event: End) -> None:
        self.ending = event.ending.value
        self._end_pauses(GREATEST_MOMENT)
