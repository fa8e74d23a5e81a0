"""What stands before the event of a line: task, CPU and time, as tracefs, `trace-cmd report` and `perf script` print them.

    tracefs     writer-1     [000] .....  1021.718208: global_dirty_state: ..
    trace-cmd   writer-1     [000]        1021.718208: global_dirty_state: ..          flags may stand there too
    perf        writer   1   [000]        1021.718208: writeback:global_dirty_state: ..

A task's name may have spaces, dashes and parentheses. Behind it the number of its thread group may stand in round brackets.
"""
from __future__ import annotations

import re

OF_TRACEFS = re.compile(r"\s*(?P<name>\S.*|)-(?P<number>\d{1,10})\s+(?:\([\s\d-]+\)\s+)?\[(?P<cpu>\d{1,5})\]\s+(?:[^\s:]+\s+)?"
                        r"(?P<time>\d+\.\d+):\s+(?:writeback:)?")
OF_PERF = re.compile(r"\s*(?P<name>\S.*?)\s+(?:\d{1,10}/)?(?P<number>\d{1,10})\s+(?:\[(?P<cpu>\d{1,5})\]\s+)?(?P<time>\d+\.\d+):\s+"
                     r"(?:writeback:)?")
UNKNOWN = "<...>-"
"""Begins a task of which the kernel told no name."""

LATEST = 10**10
"""Seconds: the greatest time that is read, three hundred years."""

Head = tuple[str, int, float]
"""Task with its number, CPU, seconds."""


class Heads:
    """Reads heads. Most of a text have four words with a task and a CPU that were seen before."""

    def __init__(self) -> None:
        self.tasks: dict[str, str] = {}
        self.cpus: dict[str, int] = {}
        self.known: set[str] = set()
        """Tasks of lines so far."""

        self.names: dict[str, str] = {}
        """By its number, the first of them whose name was told."""

    def read(self, text: str) -> Head | None:
        """The head, or nothing where it is none."""
        words = text.split()
        if len(words) == 4:
            try:
                return self.tasks[words[0]], self.cpus[words[1]], float(words[3][:-1])
            except (KeyError, ValueError):
                pass
        return self.read_any(text)

    def read_any(self, text: str) -> Head | None:
        """The same of any head."""
        found = OF_TRACEFS.fullmatch(text) or OF_PERF.fullmatch(text)
        if not found:
            return None
        time = float(found["time"])
        if time >= LATEST:
            return None
        name, number, cpu = found["name"], found["number"], found["cpu"] or "0"
        task = f"{name}-{number}"
        if task.startswith(UNKNOWN):
            task = self.names.get(number, task)
        words = text.split()
        self.learn(task)
        if len(words) == 4 and words[0] == task and not task.startswith(UNKNOWN) and words[1] == f"[{cpu}]" and words[3].endswith(":"):
            self.tasks[task] = task
            self.cpus[words[1]] = int(cpu)
        return task, int(cpu), time

    def learn(self, task: str) -> None:
        """A task of a line."""
        self.known.add(task)
        if not task.startswith(UNKNOWN):
            self.names.setdefault(task.rpartition("-")[2], task)
