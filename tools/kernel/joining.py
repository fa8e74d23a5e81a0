"""Each check with the lines that it belongs to.

An estimate's line tells bandwidth and average as they were before its update. So the check that made the update, whose line comes
right after, was decided by the average in that line; and every later one by the average that the update made, or by one that a later
update without a line made, of which the *next* line of the disk tells the last.

A text is joined as it is read: what is known in full is given on, in the order of the lines, and dropped.
"""
from __future__ import annotations

from array import array
from collections import deque
from collections.abc import Callable, Collection, Iterable
from dataclasses import dataclass, field
from typing import TYPE_CHECKING, Protocol, Union

from laws.pauses import Least

from .raised import Plain
from .scale import Scale
from .reading import Lost
from .tracepoints import Balance, Line, Sample, State

if TYPE_CHECKING:
    from .cgroups import Solved

MOST_WAITING = 20_000
"""Checks and estimates that wait for the next estimate of a disk. Where more do, the first one goes on without: an estimate comes five times a
second where there are checks."""

SAME_UPDATE = 0.001
"""Seconds within which the two lines of one update of a cgroup's disk are printed."""


class Joined:
    """A check, with the domain's state that it read, the estimates around it, and what its task did before."""

    __slots__ = ("check", "state", "before", "last", "is_own", "is_strict", "is_raised", "after", "previous", "free",
                 "bounds", "first_bounds", "scale", "solved")

    def __init__(self, check: Balance, state: State | None, last: Estimated | None, is_own: bool, is_strict: bool,
                 previous: Joined | None = None, free: State | None = None) -> None:
        self.check = check
        self.state = state
        self.last = last
        self.before = last.sample if last else None
        """The last estimate of its disk."""

        self.is_own = is_own
        """Whether this check made the update of that estimate."""

        self.is_strict = is_strict
        """Whether its disk is strict."""

        self.is_raised = False
        """Whether its thresholds are raised, as for a task of a real-time class."""

        self.after: Sample | None = None
        """The next estimate of its disk."""

        self.previous = previous
        """The check of its task before."""

        self.free = free
        """The last state that its task read between the two, and was free."""

        self.bounds: list[tuple[int, Least]] | None = None
        """For each average that it may have been decided by, the longest pause and the least one, once they are computed."""

        self.first_bounds: tuple[int, Least] | None = None
        """The same for the likeliest average alone."""

        self.scale: Scale | None = None
        """Of its cgroup, where it is in one."""

        self.solved: tuple[Solved | None] | None = None
        """What gives its rate by its cgroup's own domain, once that is solved: `cgroups.solved`."""


class Passed(Joined):
    """The last check of a task before the lines that are joined: what follows depends on it, and it itself isn't given on."""

    __slots__ = ()

    @classmethod
    def between(cls) -> Passed:
        """Stands for a check or an estimate that went before too, and on which nothing depends."""
        found = cls(Balance(*NOTHING), None, None, False, False)
        found.after = Sample(*NOTHING[:len(Sample._fields)])
        return found


NOTHING = (0, "", 0, 0.0, "", *(0 for _ in Balance._fields[5:]))


@dataclass
class Free:
    """A state that a writer read and was free: no line of a check follows."""

    state: State
    is_strict: bool
    """Whether the disk of its task's next check, or else of the last one, is strict."""


class Estimated:
    """An estimate's line, with the one before and the one after, and the check that made it."""

    __slots__ = ("sample", "before", "after", "check", "first", "is_first", "written")

    def __init__(self, sample: Sample, before: Sample | None, first: Sample | None = None) -> None:
        self.sample = sample
        self.before = before
        self.after: Sample | None = None
        self.check: Joined | None = None
        self.first = first
        """The line before of the same update, where a cgroup's disk has two: this is the one by the cgroup's own domain."""

        self.is_first = False
        """Whether another line of the same update follows."""

        self.written: tuple[int, int] | None = None
        """Pages that the machine wrote from the line before to this one, and from this one to the next."""


Item = Union[Joined, Estimated, Free]


class Taker(Protocol):
    """Takes what is joined, in the order of the lines."""

    def free(self, free: Free) -> None: ...
    def check(self, joined: Joined) -> None: ...
    def estimate(self, estimated: Estimated) -> None: ...


@dataclass
class TaskSoFar:
    """What is known of a task."""

    read: State | None = None
    free: State | None = None
    """The last state that it read since its last check, and was free."""

    frees: array[int] = field(default_factory=lambda: array("q"))
    """All such states: line, pages, background threshold, threshold, limit of each. Most tasks that have many write nothing themselves."""

    last: Joined | None = None
    own: Estimated | None = None
    earlier: array[int] | None = None
    """The lines of such states before those, which aren't read yet."""


class Joiner:
    """Takes the lines of a text, of which these disks are strict, in all cgroups."""

    def __init__(self, taker: Taker, strict: Collection[str] = (), is_kept: bool = False) -> None:
        self.taker = taker
        self.strict = strict
        self.is_kept = is_kept
        """Whether the taker keeps each item, and wants to know what a task did before."""

        self.tasks: dict[str, TaskSoFar] = {}
        self.sampled: dict[str, Estimated] = {}
        self.open: dict[str, deque[Joined | Estimated]] = {}
        """By disk, what waits for its next estimate."""

        self.waiting: deque[Joined | Estimated] = deque()
        self.written: dict[str, int] = {}
        """By disk, the pages that the machine had written at its last estimate."""

        self.last_state: State | None = None
        self.plain = Plain()
        self.scales: dict[str, Scale] = {}
        self.scale: Callable[[], Scale] = Scale
        self.read_at: Callable[[int], Line] | None = None
        """Reads an earlier line, by its number."""

    def take(self, lines: Iterable[Line | Lost]) -> None:
        """All lines."""
        take_state, take_check = self.take_state, self.take_check
        for line in lines:
            kind = type(line)
            if kind is State:
                take_state(line)  # type: ignore[arg-type]
            elif kind is Balance:
                take_check(line)  # type: ignore[arg-type]
            elif kind is Sample:
                self.take_sample(line)  # type: ignore[arg-type]
            else:
                for task in self.tasks.values():
                    task.read = task.own = None

    def take_state(self, line: State) -> None:
        """A state of the domain: if its task reads another one before a check, it was free."""
        self.last_state = line
        plain = self.plain.state
        if plain is None or line[7] != plain[7] or line[6] != plain[6]:
            self.plain.is_raised(line)
        task = self.tasks.get(line[1])
        if task is None:
            task = self.tasks[line.task] = TaskSoFar()
        elif (free := task.read) is not None:
            task.free = free
            task.frees.extend((free.line, free.dirty + free.writeback, free.background, free.thresh, free.limit))
        task.read = line
        task.own = None

    def let_free(self, task: str, of: TaskSoFar, is_strict: bool) -> None:
        """Gives the free ones of a writer on."""
        kept = of.frees
        if of.earlier and self.read_at:
            for number in of.earlier:
                self.taker.free(Free(self.read_at(number), is_strict))  # type: ignore[arg-type]
        of.earlier = None
        for at in range(0, len(kept), 5):
            line, count, background, thresh, limit = kept[at:at + 5]
            self.taker.free(Free(State(line, task, 0, 0.0, count, 0, background, thresh, limit, 0, 0), is_strict))
        of.free, of.frees = None, array("q")

    def take_sample(self, line: Sample) -> None:
        """An estimate: all that waits for one of its disk is known in full."""
        before = self.sampled.get(line.disk)
        task = self.tasks.setdefault(line.task, TaskSoFar())
        is_second = before is not None and task.own is before and before.sample.time > line.time - SAME_UPDATE
        estimated = Estimated(line, before.sample if before else None, before.sample if before and is_second else None)
        written = self.last_state.written if self.last_state else 0
        if before and is_second:
            before.is_first = True
        since = self.written.get(line.disk)
        estimated.written = (written - since if since is not None else written, 0)
        for item in self.open.pop(line.disk, ()):
            item.after = line
            if isinstance(item, Estimated) and since is not None and item.written:
                item.written = (item.written[0], written - since)
        self.written[line.disk] = written
        self.sampled[line.disk] = task.own = estimated
        self.wait(line.disk, estimated)
        self.give()

    def take_check(self, line: Balance) -> None:
        """A check, which is known in full with the next estimate of its disk."""
        task = self.tasks.get(line.task)
        if task is None:
            task = self.tasks[line.task] = TaskSoFar()
        last = self.sampled.get(line.disk)
        is_own = last is not None and task.own is last
        is_strict = bool(self.strict) and line.device in self.strict
        joined = Joined(line, task.read, last, is_own, is_strict, task.last, task.free)
        if " " in line[4]:
            joined.scale = self.scales.setdefault(line.disk, self.scale())
        state, plain = task.read, self.plain.state
        joined.is_raised = state is not None and plain is not None and state[7] != plain[7] and self.plain.is_raised(state)
        if is_own and last:
            last.check = joined
        if task.free is not None:
            self.let_free(line.task, task, is_strict)
        task.read = task.own = None
        task.last = joined
        self.wait(line.disk, joined)

    def wait(self, disk: str, item: Joined | Estimated) -> None:
        """An item more that waits."""
        self.open_of(disk).append(item)
        self.waiting.append(item)
        if len(self.waiting) > MOST_WAITING:
            self.give(1)

    def is_waiting(self, last: int) -> bool:
        """Whether something waits of the lines up to this one."""
        if not self.waiting:
            return False
        item = self.waiting[0]
        return (item.check if isinstance(item, Joined) else item.sample).line <= last

    def open_of(self, disk: str) -> deque[Joined | Estimated]:
        """What waits for the next estimate of a disk."""
        return self.open.setdefault(disk, deque())

    def give(self, at_least: int = 0) -> None:
        """Gives on what is known in full, and at least so many."""
        while self.waiting and (at_least > 0 or self.waiting[0].after is not None):
            at_least -= 1
            item = self.waiting.popleft()
            if item.after is None:
                self.open[item.check.disk if isinstance(item, Joined) else item.sample.disk].popleft()
            self.give_one(item)

    def give_one(self, item: Joined | Estimated) -> None:
        """One item. What its task did before that is of no use any more."""
        kind = type(item)
        if kind is Estimated:
            self.taker.estimate(item)  # type: ignore[arg-type]
            if not self.is_kept:
                item.check = None  # type: ignore[union-attr]
        elif kind is Joined:
            self.taker.check(item)  # type: ignore[arg-type]
            if not self.is_kept:
                item.previous = None  # type: ignore[union-attr]

    def end(self) -> None:
        """No line follows."""
        self.give(len(self.waiting))
        for name, task in self.tasks.items():
            if task.last and task.free is not None:
                self.let_free(name, task, task.last.is_strict)
