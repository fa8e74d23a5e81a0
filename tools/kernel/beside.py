"""What a kernel did, and what a replay of a trace like its machine did.

Both are looked at from the first check that isn't free to the last one. The writers of a replay are its tasks with a pace, if there are any. A level is held from check to check. Pages written are those of
the whole machine for the kernel, and those of the batches that were written in the span for a replay.
"""
from __future__ import annotations

from collections import Counter
from collections.abc import Callable, Iterable, Sequence
from dataclasses import dataclass, field
from typing import NamedTuple

from journals import events
from journals.events import Decision, Event
from journals.trace import Trace

from .joining import Joined
from .machine import FEW
from .whole import Story

Point = tuple[float, float]


@dataclass
class Span:
    """What one of both did. Times are in seconds from the first check that isn't free, spans of pauses too."""

    name: str
    writers: list[str] = field(default_factory=list)
    levels: list[Point] = field(default_factory=list)
    rate_limits: dict[str, list[Point]] = field(default_factory=dict)
    pauses: list[tuple[str, float, float]] = field(default_factory=list)
    """Task, begin, length."""

    waits: int = 0
    """Pauses at a rate of 0."""

    checks: int = 0
    written: float = 0.0
    limits: tuple[int, int, int, int] = (0, 0, 0, 0)
    """Freerun, setpoint, threshold and hard limit, as they were last."""

    @property
    def seconds(self) -> float:
        """From the first check to the last."""
        return max(self.levels[-1][0] if self.levels else 0.0, 1e-9)

    def level(self) -> float:
        """The mean count, each held to the next."""
        held = [(after[0] - before[0]) * before[1] for before, after in zip(self.levels, self.levels[1:])]
        return sum(held) / self.seconds

    def paused(self) -> float:
        """Which part of its time a writer is paused, in percent, of all writers."""
        within = (min(begin + length, self.seconds) - begin for _, begin, length in self.pauses)
        return 100 * sum(within) / self.seconds / max(len(self.writers), 1)

    def rate_limit(self) -> float:
        """The mean of the last rate limits of all disks, each held to the next."""
        sums = []
        for points in self.rate_limits.values():
            ended = [*points, (self.seconds, 0.0)]
            length = max(self.seconds - points[0][0], 1e-9)
            sums.append(sum(max(after[0] - before[0], 0) * before[1] for before, after in zip(ended, ended[1:])) / length)
        return sum(sums) / max(len(sums), 1)

    def fallen(self) -> tuple[int, int] | None:
        """How many rate limits are below the one before, and how many there are that have one before."""
        pairs = [pair for points in self.rate_limits.values() for pair in zip(points, points[1:])]
        return sum(after[1] < before[1] for before, after in pairs), len(pairs)

    def many(self) -> int:
        """Pauses of all writers."""
        return len(self.pauses)

    def pause(self) -> float:
        """The mean pause, in seconds."""
        return sum(length for *_, length in self.pauses) / max(len(self.pauses), 1)

    def longest(self) -> float:
        """The longest pause, in seconds."""
        return max((length for *_, length in self.pauses), default=0.0)

    def at_rate_of_0(self) -> float | None:
        """Which part of the pauses is at a rate of 0, in percent."""
        return 100 * self.waits / max(len(self.pauses), 1)

    def bars(self) -> list[tuple[str, float, float, float]]:
        """What is drawn of the pauses: task, begin, width, and how long one is."""
        return [(task, begin, length, length) for task, begin, length in self.pauses]


def of_kernel(story: Story, longest: float | None = None) -> Span:
    """What the kernel did, in at most so many seconds."""
    begin = story.checks[0].check.time
    checks = [joined for joined in story.checks if longest is None or joined.check.time - begin <= longest]
    end = checks[-1].check.time
    it = Span("kernel", sorted({joined.check.task for joined in checks}), checks=len(checks))
    for joined in checks:
        check = joined.check
        it.levels.append((check.time - begin, joined.state.count if joined.state and check.is_of_cgroup else check.dirty))
        if check.pause > 0:
            it.pauses.append((check.task, check.time - begin, check.pause / 1000))
            it.waits += not check.rate
        if joined.state:
            freerun = (joined.state.thresh + joined.state.background) // 2
            it.limits = (freerun, check.setpoint, joined.state.thresh, max(check.limit, joined.state.thresh))
    disks = written_disks(checks)
    for sample in story.text.samples:
        if sample.disk in disks and sample.time <= end:
            points = it.rate_limits.setdefault(f"disk {sample.disk}", [])
            if points and sample.time <= begin:
                points.clear()
            points.append((max(sample.time - begin, 0.0), sample.ratelimit))
    states = [state for state in story.text.states if begin <= state.time <= end]
    if len(states) > 1:
        it.written = (states[-1].written - states[0].written) / max(states[-1].time - states[0].time, 1e-9)
    return it


def written_disks(checks: Sequence[Joined]) -> set[str]:
    """The disks of checks but those that have few of their pages, each with its cgroup."""
    pages: Counter[str] = Counter()
    for it in checks:
        pages[it.check.disk] += it.check.dirtied
    return {disk for disk, many in pages.items() if many * FEW >= sum(pages.values())}


def of_replay(trace: Trace, journal: Iterable[Event], longest: float | None = None) -> Span:
    """What a replay did, in at most so many seconds."""
    writers = sorted(trace.paces) or list(range(len(trace.tasks)))
    written = {context for task, context in trace.writers() if task in writers}
    it = Span("replay", [f"task {number}" for number in writers])
    levels: list[tuple[int, int]] = []
    pauses: list[tuple[int, int, int, bool]] = []
    rate_limits: list[tuple[int, int, int]] = []
    batches: list[tuple[int, int]] = []
    count = 0
    for event in journal:
        if isinstance(event, events.Read) and event.domain == 0:
            count = max(event.count, 0)
            freerun = (event.thresh + event.background) // 2
            it.limits = (freerun, (freerun + event.hard) // 2, event.thresh, event.hard)
        elif isinstance(event, events.Check) and event.decision is not Decision.FREE and event.task in writers:
            levels.append((event.now, count))
            if event.pause:
                pauses.append((event.task, event.now, event.pause, event.decision is Decision.WAIT))
        elif isinstance(event, events.Estimate) and event.context in written:
            rate_limits.append((event.at, event.context, event.rate_limit))
        elif isinstance(event, events.Batch):
            batches.append((event.until, event.pages))
        elif isinstance(event, events.Steps):
            break
    levels.sort()
    if not levels:
        return it
    begin, end = levels[0][0], levels[-1][0]
    if longest is not None:
        end = min(end, begin + round(1000 * longest))
    it.levels = [((now - begin) / 1000, pages) for now, pages in levels if now <= end]
    it.checks = len(it.levels)
    pauses = [pause for pause in pauses if pause[1] <= end]
    it.pauses = sorted((f"task {task}", (now - begin) / 1000, length / 1000) for task, now, length, _ in pauses)
    it.waits = sum(is_wait for *_, is_wait in pauses)
    for at, context, rate in sorted(rate_limits):
        if begin <= at <= end:
            it.rate_limits.setdefault(f"context {context}", []).append(((at - begin) / 1000, rate))
    it.written = sum(pages for until, pages in batches if begin < until <= end) / it.seconds
    return it


class Row(NamedTuple):
    """A row of the table: what it is, the value of each, and the quotient of the second to the first, where there is one."""

    name: str
    values: list[str]
    quotient: str


def rows(spans: Sequence[Span]) -> list[Row]:
    """The table."""
    fell = Row("  estimates that fell, of all", ["{} of {}".format(*found) if (found := it.fallen()) else UNTOLD for it in spans], "")
    return [*(row_of(name, [of(it) for it in spans], digits) for name, digits, of in NUMBERS), fell]


UNTOLD = "not told"


def row_of(name: str, values: list[float | None], digits: int) -> Row:
    """The row of some values with so many digits behind the point."""
    quotient = f"{values[1] / values[0]:.2f}" if len(values) == 2 and values[0] and values[1] is not None else ""
    return Row(name, [UNTOLD if value is None else f"{value:.{digits}f}" for value in values], quotient)


NUMBERS: list[tuple[str, int, Callable[[Span], float | None]]] = [
    ("seconds", 1, lambda it: it.seconds),
    ("checks that aren't free", 0, lambda it: it.checks),
    ("pages of the domain, mean", 0, lambda it: it.level()),
    ("  least", 0, lambda it: min((pages for _, pages in it.levels), default=0)),
    ("  greatest", 0, lambda it: max((pages for _, pages in it.levels), default=0)),
    ("  setpoint", 0, lambda it: it.limits[1]),
    ("  hard limit", 0, lambda it: it.limits[3]),
    ("pages written a second", 0, lambda it: it.written),
    ("time paused of a writer, %", 1, lambda it: it.paused()),
    ("pauses a second of a writer", 1, lambda it: it.many() / it.seconds / max(len(it.writers), 1)),
    ("a pause, mean, ms", 1, lambda it: 1000 * it.pause()),
    ("  longest, ms", 0, lambda it: 1000 * it.longest()),
    ("  at a rate of 0, %", 1, lambda it: it.at_rate_of_0()),
    ("rate limit, mean, pages/s", 0, lambda it: it.rate_limit()),
]
"""What each row but the last says: its name, how many digits stand behind the point, and its value."""


def farthest(one: Sequence[Point], other: Sequence[Point]) -> tuple[float, float]:
    """The greatest distance of two counts at one time, each held from point to point, and when it is that. Both have a point."""
    counts, greatest = [one[0][1], other[0][1]], (0.0, 0.0)
    last = min(one[-1][0], other[-1][0])
    moves = sorted((time, which, pages) for which, points in enumerate((one, other)) for time, pages in points if time <= last)
    for place, (time, which, pages) in enumerate(moves):
        counts[which] = pages
        if place + 1 == len(moves) or moves[place + 1][0] > time:
            greatest = max(greatest, (abs(counts[0] - counts[1]), time), key=lambda it: it[0])
    return greatest
