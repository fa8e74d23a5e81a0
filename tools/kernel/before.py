"""What the lines before a place of a text leave for those after it, found without reading most of them in full.

Of each task that is its last check, and what it has read since; of each disk, its estimates; of all, the thresholds and the latest times. A
state or a check whose head is known is only looked at for whose it is. Any other line is read in full. All are taken to be lawful: whoever
reads them in full says where they aren't.
"""
from __future__ import annotations

from array import array
from bisect import bisect_left, bisect_right
from collections.abc import Iterable
from typing import NamedTuple

from .common import read_common
from .heads import UNKNOWN, Heads
from .joining import MOST_WAITING, Estimated, Joiner, Passed, TaskSoFar
from .raised import Plain
from .reading import APART, Reader, Source
from .tracepoints import LOST, Bad, Balance, Line, Sample, State, read_line

STATES, CHECKS = ((f" {event}: ", f":{event}: ") for event in ("global_dirty_state", "balance_dirty_pages"))
"""How these events stand in a line: after a space, or after the name of their system."""

NEAR = 1 << 16
"""Bytes before a place in which the latest times are looked for first."""

LIMITS, AFTER_LIMITS = " bg_thresh=", " dirtied="
ANY = "\n"
"""In place of limits where the next state's are looked at: no line has it."""


class Raw(NamedTuple):
    """A line that isn't read: its number, and its text."""

    number: int
    line: str


class TaskBefore:
    """What is known of a task."""

    __slots__ = ("read", "free", "frees", "check", "items", "own")

    def __init__(self) -> None:
        self.read: Raw | None = None
        self.free: Raw | None = None
        """The last state that it read since its last check, and was free."""

        self.frees = array("q")
        """The numbers of all such states."""

        self.check: Raw | None = None
        self.items = 0
        """How many checks and estimates went before that check."""

        self.own: tuple[str, int] | None = None
        """A disk, and which of its estimates this task has made since it last read a state."""

    def take_state(self, raw: Raw) -> None:
        """It read a state: if it had read another one, it was free."""
        free = self.read
        if free is not None:
            self.free = free
            self.frees.append(free[0])
        self.read = raw
        self.own = None

    def take_check(self, raw: Raw, items: int) -> None:
        """It wasn't free."""
        self.check, self.items = raw, items
        self.read = self.free = self.own = None
        if self.frees:
            self.frees = array("q")


class DiskBefore:
    """The estimates of a disk: the number of each line, how many checks and estimates went before, and what the machine had written."""

    __slots__ = ("numbers", "items", "written")

    def __init__(self) -> None:
        self.numbers, self.items, self.written = (array("q") for _ in range(3))


class Before:
    """Takes the lines of a text up to a place."""

    def __init__(self, source: Source) -> None:
        self.source = source
        self.heads = Heads()
        self.tasks: dict[str, TaskBefore] = {}
        self.keys: dict[str, TaskBefore] = {}
        """By what stands before the CPU of a line."""

        self.disks: dict[str, DiskBefore] = {}
        self.state: Raw | None = None
        self.plain = Plain()
        self.limits = ANY
        """Limits as a line has them that don't change which state is plain, as the last states had them."""

        self.chunks, self.places = array("q"), array("q")
        """Of each chunk, the number of its first line and where that begins."""

        self.items = self.number = 0
        self.sampled = 0.0
        """When the last estimate was printed."""

        for lines in source.chunks():
            self.chunks.append(self.number + 1)
            self.places.append(source.place)
            ats = [line.find("[") for line in lines]
            if min(ats, default=-1) >= 0 and source.brackets == len(lines):
                self.take(lines, ats)
            else:
                for number, line in enumerate(lines, self.number + 1):
                    self.take_other(Raw(number, line))
                self.limits = ANY
            self.number += len(lines)

    def take(self, lines: list[str], ats: list[int]) -> None:
        """Lines with one bracket each, which opens at these places: before it stands a task."""
        keys, limits, number, new = self.keys, self.limits, self.number, tuple.__new__
        (state, state_of_perf), (check, check_of_perf) = STATES, CHECKS
        for line, at in zip(lines, ats):
            number += 1
            task = keys.get(line[:at])
            if task is None:
                self.take_other(Raw(number, line))
                limits = ANY
            elif state in line or state_of_perf in line:
                raw = self.state = new(Raw, (number, line))
                # As `take_state`, without the call: most lines come here.
                if task.read is not None:
                    task.free = task.read
                    task.frees.append(task.read[0])
                task.read = raw
                task.own = None
                if limits not in line:
                    limits = self.take_limits(raw)
            elif check in line or check_of_perf in line:
                task.take_check(new(Raw, (number, line)), self.items)
                self.items += 1
            else:
                self.take_other(Raw(number, line))
                limits = ANY
        self.limits = limits

    def take_limits(self, raw: Raw) -> str:
        """A state whose limits may be other ones."""
        state = self.read(raw)
        assert isinstance(state, State)
        self.plain.is_raised(state)
        begin, end = raw.line.find(LIMITS), raw.line.find(AFTER_LIMITS)
        return raw.line[begin:end + len(AFTER_LIMITS)] if 0 < begin < end else ANY

    def take_other(self, raw: Raw) -> None:
        """Any line."""
        try:
            read = read_common(*raw) or read_line(*raw, self.heads)
        except Bad:
            return
        if read is None:
            if LOST.match(raw.line):
                for task in self.tasks.values():
                    task.read = task.own = None
            return
        self.heads.learn(read.task)
        task = self.task_of(read, raw.line)
        if isinstance(read, State):
            self.state = raw
            task.take_state(raw)
            self.plain.is_raised(read)
        elif isinstance(read, Balance):
            task.take_check(raw, self.items)
            self.items += 1
        else:
            self.take_sample(read, task)

    def task_of(self, read: Line, line: str) -> TaskBefore:
        """The task of a line, which is known by what stands before its CPU from now on."""
        task = self.tasks.get(read.task)
        if task is None:
            task = self.tasks[read.task] = TaskBefore()
        key = line[:line.find("[")]
        if line.count("[") == 1 and UNKNOWN not in key:
            self.keys[key] = task
        return task

    def take_sample(self, sample: Sample, task: TaskBefore) -> None:
        """An estimate."""
        disk = self.disks.get(sample.disk)
        if disk is None:
            disk = self.disks[sample.disk] = DiskBefore()
        state = self.state_of(self.state)
        task.own = (sample.disk, len(disk.numbers))
        disk.numbers.append(sample.line)
        disk.items.append(self.items)
        disk.written.append(state.written if state else 0)
        self.items += 1
        self.sampled = sample.time

    def read(self, raw: Raw) -> Line:
        """A line in full."""
        read = read_common(*raw) or read_line(*raw, self.heads)
        assert read is not None
        return read

    def read_at(self, number: int) -> Line:
        """The line of a number."""
        chunk = bisect_right(self.chunks, number) - 1
        lines = self.source.between(self.places[chunk], self.places[chunk + 1] if chunk + 1 < len(self.places) else self.source.end)
        return self.read(Raw(number, lines[number - self.chunks[chunk]]))

    def begin(self, reader: Reader, joiner: Joiner) -> None:
        """Lets both go on from here, as if they had read all that."""
        reader.heads, reader.number = self.heads, self.number
        self.put_times(reader)
        joiner.plain = self.plain
        joiner.last_state = self.state_of(self.state)
        joiner.read_at = self.read_at
        for name, disk in self.disks.items():
            joiner.sampled[name] = self.estimated(disk, len(disk.numbers) - 1)
            joiner.written[name] = disk.written[-1]
        for name, task in self.tasks.items():
            joiner.tasks[name] = self.so_far(task, joiner)
        wait(joiner, [(task.last, self.tasks[name].items) for name, task in joiner.tasks.items() if isinstance(task.last, Passed)], self.items)

    def put_times(self, reader: Reader) -> None:
        """The latest time, and those of the CPUs that have a line so late that another one after it may be before it. As lines change places
        by so much at most, none is as late that stands before one which is twice as far from the latest."""
        order, size = reader.order, NEAR
        while True:
            begin = self.source.next_line(max(self.source.end - size, 0))
            times = [(read.cpu, read.time) for line in self.source.between(begin, self.source.end) if (read := self.any_line(line))]
            order.times = dict(times)
            order.latest = max((time for _, time in times), default=0.0)
            if not begin or times and times[0][1] < order.latest - 2 * APART:
                return
            size *= 2

    def any_line(self, line: str) -> Line | None:
        """A line, if it is of a tracepoint."""
        try:
            return read_common(0, line) or read_line(0, line, self.heads)
        except Bad:
            return None

    def state_of(self, raw: Raw | None) -> State | None:
        """A state in full."""
        read = self.read(raw) if raw else None
        return read if isinstance(read, State) else None

    def so_far(self, task: TaskBefore, joiner: Joiner) -> TaskSoFar:
        """What a joiner knows of a task."""
        found = TaskSoFar(self.state_of(task.read), self.state_of(task.free), earlier=task.frees)
        if task.check:
            check = self.read(task.check)
            assert isinstance(check, Balance)
            found.last = self.passed(check, task.items, joiner)
        if task.own and task.own[1] == len(self.disks[task.own[0]].numbers) - 1:
            found.own = joiner.sampled[task.own[0]]
        return found

    def passed(self, check: Balance, items: int, joiner: Joiner) -> Passed:
        """The last check of a task, with the estimates around it."""
        disk = self.disks.get(check.disk)
        at = bisect_left(disk.numbers, check.line) if disk else 0
        last = self.estimated(disk, at - 1) if disk and at else None
        found = Passed(check, None, last, False, check.device in joiner.strict)
        if disk and at < len(disk.numbers) and disk.items[at] - items <= MOST_WAITING:
            found.after = self.sample(disk, at)
        return found

    def sample(self, disk: DiskBefore, at: int) -> Sample:
        """The line of an estimate."""
        read = self.read_at(disk.numbers[at])
        assert isinstance(read, Sample)
        return read

    def estimated(self, disk: DiskBefore, at: int) -> Estimated:
        """An estimate, with the one before."""
        found = Estimated(self.sample(disk, at), self.sample(disk, at - 1) if at else None)
        found.written = (disk.written[at] - (disk.written[at - 1] if at else 0), 0)
        return found


def wait(joiner: Joiner, checks: Iterable[tuple[Passed, int]], items: int) -> None:
    """Lets those checks wait that have no estimate after them yet, each as far from its end as it is; others stand between."""
    between = Passed.between()
    for check, at in sorted(checks, key=lambda it: it[1]):
        if check.after is None and items - at <= MOST_WAITING:
            first = first if joiner.waiting else at
            joiner.waiting.extend([between] * (at - first - len(joiner.waiting)))
            joiner.open_of(check.check.disk).append(check)
            joiner.waiting.append(check)
    if joiner.waiting:
        joiner.waiting.extend([between] * (items - first - len(joiner.waiting)))
