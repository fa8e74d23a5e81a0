"""What is known of a process: a line of JSON in a log."""
from __future__ import annotations

import json
from collections.abc import Iterable, Iterator
from dataclasses import dataclass


@dataclass(frozen=True)
class Process:
    """A process at its last sample. Times are seconds of the clock, `cpu` is its own processor time in seconds without its children's, and
    `hwm` the most memory that it had at once, in KB."""

    pid: int
    ppid: int
    name: str
    cmd: tuple[str, ...]
    cwd: str
    start: float
    end: float
    cpu: float
    hwm: int

    @property
    def elapsed(self) -> float:
        """How long it was seen."""
        return self.end - self.start

    def after(self, flag: str) -> str:
        """The word behind a flag of its command; none where it isn't there."""
        return next((word for at, word in zip(self.cmd, self.cmd[1:]) if at == flag), "")

    def line(self) -> str:
        """Its line in a log."""
        return json.dumps({**vars(self), "cmd": list(self.cmd)})


@dataclass(frozen=True)
class Log:
    """The processes of a run, and what its first line tells of it: commit, number of processors, the process that was started; each may
    be missing. `total` is the processor time of all, also of those that no sample met, where it was told."""

    processes: list[Process]
    commit: str
    processors: int
    root: int
    total: float
    is_whole: bool


def read_log(lines: Iterable[str]) -> Log:
    """Reads a log. A process that has several lines is as the last one has it; a last line that is cut off tells nothing."""
    told: dict[str, object] = {}
    found: dict[tuple[int, float], Process] = {}
    for it in objects(lines):
        if "pid" in it:
            process = Process(
                int(str(it["pid"])), int(str(it["ppid"])), str(it["name"]), tuple(map(str, as_list(it["cmd"]))), str(it["cwd"]),
                float(str(it["start"])), float(str(it["end"])), float(str(it["cpu"])), int(str(it["hwm"])))
            found[process.pid, process.start] = process
        else:
            told |= it
    return Log(
        list(found.values()), str(told.get("commit", "")), int(str(told.get("processors", 0))), int(str(told.get("root", 0))),
        float(str(told.get("total", 0))), "total" in told)


def objects(lines: Iterable[str]) -> Iterator[dict[str, object]]:
    """The lines that are JSON objects."""
    for line in lines:
        try:
            it = json.loads(line)
        except ValueError:
            continue
        if isinstance(it, dict):
            yield it


def as_list(value: object) -> list[object]:
    """A list, or none."""
    return value if isinstance(value, list) else []


def below(processes: Iterable[Process], root: int) -> list[Process]:
    """Those that the process of this number started, and those that these started, in the order in which they began."""
    found, inside = [], {root}
    for it in sorted(processes, key=lambda it: (it.start, it.pid)):
        if it.ppid in inside:
            inside.add(it.pid)
            found.append(it)
        else:
            # The number was another process's before.
            inside -= {it.pid} - {root}
    return found
