"""The processes below one, sampled once a second. Of one that lives less than that no sample may tell, and of each the last moments are
lost: what the started process has of its ended children's processor time tells how much that is."""
from __future__ import annotations

import json
import os
import time
from collections.abc import Iterator
from dataclasses import replace
from typing import TextIO

from .process import Process

TICKS = os.sysconf("SC_CLK_TCK")
EVERY, WHOLE_EVERY = 1, 60
"""Seconds between samples, and between lines of processes that still run."""


def numbers_of(pid: int) -> tuple[str, list[str]]:
    """A process's name, and the fields of its `stat` from its state on."""
    with open(f"/proc/{pid}/stat", encoding="latin-1") as file:
        name, _, rest = file.read().partition("(")[2].rpartition(")")
    return name, rest.split()


def seconds_of(fields: list[str], at: int) -> float:
    """Processor time in user and system mode, from a field on."""
    return (int(fields[at]) + int(fields[at + 1])) / TICKS


def most_memory(pid: int) -> int:
    """The most memory that a process had, in KB; 0 of one that has ended."""
    with open(f"/proc/{pid}/status", encoding="latin-1") as file:
        return next((int(line.split()[1]) for line in file if line.startswith("VmHWM:")), 0)


def children_of_all() -> dict[int, list[int]]:
    """The numbers of each process's children."""
    found: dict[int, list[int]] = {}
    for pid in (int(name) for name in os.listdir("/proc") if name.isdigit()):
        try:
            found.setdefault(int(numbers_of(pid)[1][1]), []).append(pid)
        except OSError:
            pass
    return found


def descendants(root: int) -> Iterator[int]:
    """The numbers of the processes below one, it first."""
    children, left = children_of_all(), [root]
    while left:
        pid = left.pop()
        yield pid
        left += children.get(pid, [])


class Sampler:
    """Samples the processes below one that was started, and writes a line of each that ended, and from time to time of all."""

    def __init__(self, root: int, log: TextIO) -> None:
        self.root, self.log = root, log
        self.running: dict[tuple[int, str], Process] = {}
        self.written = time.time()
        self.total = 0.0

    def sample(self) -> None:
        """Takes one sample."""
        now, seen = time.time(), set()
        for pid in descendants(self.root):
            try:
                key = self.look(pid, now)
            except OSError:
                # It has ended since.
                continue
            seen.add(key)
        for key in [it for it in self.running if it not in seen]:
            self.write(self.running.pop(key))
        if now - self.written >= WHOLE_EVERY:
            self.write_all()
            self.written = now

    def look(self, pid: int, now: float) -> tuple[int, str]:
        """Takes down what there is of one process; its number and its first moment tell it from others."""
        name, fields = numbers_of(pid)
        key = pid, fields[19]
        cpu, hwm = seconds_of(fields, 11), most_memory(pid)
        with open(f"/proc/{pid}/cmdline", encoding="utf-8", errors="replace") as file:
            cmd = tuple(file.read().rstrip("\0").split("\0"))
        known = self.running.get(key) or Process(pid, int(fields[1]), name, cmd, os.readlink(f"/proc/{pid}/cwd"), now, now, 0, 0)
        if cmd != known.cmd and cmd != ("",):
            # It runs another program than at the last sample.
            known = replace(known, name=name, cmd=cmd, cwd=os.readlink(f"/proc/{pid}/cwd"))
        self.running[key] = replace(known, end=now, cpu=cpu, hwm=max(hwm, known.hwm))
        if pid == self.root:
            self.total = seconds_of(fields, 11) + seconds_of(fields, 13)
        return key

    def write(self, process: Process) -> None:
        """Writes a process's line."""
        self.log.write(process.line() + "\n")
        self.log.flush()

    def write_all(self) -> None:
        """Writes a line of each that runs."""
        for process in self.running.values():
            self.write(process)

    def end(self, total: float) -> None:
        """Writes those that still run, and the processor time of all."""
        self.write_all()
        self.log.write(json.dumps({"total": total}) + "\n")
        self.log.flush()
