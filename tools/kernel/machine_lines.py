"""The lines of the trace of a machine like the one that printed a text."""
from __future__ import annotations

from collections.abc import Iterator

from .machine import Machine, pace_of

PERCENT = 100
FILE = 4096
"""Pages of a file: a writer writes one after another."""

FILE_OF_OTHERS = 1024
"""Pages of a file of no writer. An inode is written for its age as a whole."""

BEGIN = 4
"""Ticks after which writers begin: what was dirty in the beginning is written then, unless a check throttled it."""

FASTEST = 1 << 20
"""Pages a second of the disk that stands for all others."""


def trace_lines(machine: Machine) -> Iterator[str]:
    """All of them."""
    yield f"cpus {machine.cpus}"
    yield from limit_lines(machine)
    yield from device_lines(machine)
    yield from context_lines(machine)
    yield from task_lines(machine)


def limit_lines(machine: Machine) -> Iterator[str]:
    """The thresholds, by available pages where they move."""
    _, thresh, background = machine.limits[0]
    if len(machine.limits) == 1:
        yield f"set dirty_bytes {thresh * 4096}"
        yield f"set dirty_background_bytes {background * 4096}"
        yield f"avail 0 {thresh}"
    else:
        yield "set dirty_ratio 100"
        yield f"set dirty_background_ratio {round(PERCENT * background / thresh)}"
        for tick, thresh, _ in machine.limits:
            yield f"avail {tick} {thresh}"


def device_lines(machine: Machine) -> Iterator[str]:
    """The disks, and one that stands for all others."""
    devices = list(machine.devices.values())
    for number, it in enumerate(devices):
        yield f"device {number} {it.rate} 0 {it.greatest}"
    if machine.others:
        yield f"device {len(devices)} {FASTEST} 0 100"
    yield from (f"strict {number}" for number, it in enumerate(devices) if it.is_strict)
    for number in range(len(devices)):
        yield f"chunk {number} {machine.chunk}"
        yield f"cyclic {number}"


def context_lines(machine: Machine) -> Iterator[str]:
    """The contexts, in the cgroups, with their estimates."""
    devices, cgroups = list(machine.devices), list(machine.cgroups)
    for number, thresh in enumerate(machine.cgroups.values(), 1):
        yield f"cgroup {number} {thresh} 0"
    for number, it in enumerate(machine.contexts):
        cgroup = it.disk.partition(" of cgroup ")[2]
        yield f"context {number} {devices.index(it.device)} {cgroups.index(cgroup) + 1 if cgroup else 0}"
    if machine.others:
        yield f"context {len(machine.contexts)} {len(devices)} 0"
        if machine.others.pages:
            yield f"expire {len(machine.contexts)} {machine.others.age}"
    for number, it in enumerate(machine.contexts):
        if it.estimate:
            yield "estimate {} {} {} {}".format(number, *it.estimate)


class Tasks:
    """The tasks of a trace, and their files."""

    def __init__(self) -> None:
        self.tasks = self.inodes = 0

    def files(self, context: int, pages: int, file: int = FILE) -> Iterator[str]:
        """The task that comes next writes so many pages of a context."""
        for first in range(0, pages, file):
            many = min(file, pages - first)
            yield f"inode {self.inodes} {context} {many}"
            yield f"write {self.tasks} {self.inodes} 0 {many}"
            self.inodes += 1

    def with_rests(self, context: int, pages: int, at_once: int, rest: int) -> Iterator[str]:
        """The same with rests between that have lines of their own."""
        for line in self.files(context, pages, FILE_OF_OTHERS):
            word, *numbers = line.split(" ")
            if word != "write":
                yield line
                continue
            task, inode, _, many = map(int, numbers)
            for first in range(0, many, at_once):
                yield f"write {task} {inode} {first} {min(at_once, many - first)}"
                yield f"rest {task} {rest}"


def task_lines(machine: Machine) -> Iterator[str]:
    """The task that writes what was dirty in the beginning, then the writers, and one that stands for all others."""
    found, others = Tasks(), len(machine.contexts)
    for number in range(len(machine.devices) + bool(machine.others)):
        yield f"flusher {number} {number} {(machine.cpus - 1 - number) % machine.cpus}"
    opening = [it.pages for it in machine.contexts] + [machine.others.opening if machine.others else 0]
    if any(opening):
        yield f"task {found.tasks} 0"
        for context, pages in enumerate(opening):
            yield from found.files(context, pages)
        found.tasks += 1
    contexts = [it.disk for it in machine.contexts]
    for writer in machine.writers:
        yield f"task {found.tasks} {writer.cpu}"
        yield f"pace {found.tasks} {writer.at_once} {writer.rest}"
        yield f"rest {found.tasks} {BEGIN}"
        yield from found.files(contexts.index(writer.disk), writer.pages)
        found.tasks += 1
    if machine.others and machine.others.pages:
        yield f"task {found.tasks} 0"
        yield from found.with_rests(others, machine.others.pages, *pace_of(machine.others.rate))
