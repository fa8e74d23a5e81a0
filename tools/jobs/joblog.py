"""The job log, in the form of GNU parallel: a line for each job that has ended, with its host, its times and its status."""
from __future__ import annotations

import os
from dataclasses import dataclass

FILE = "jobs.log"
HEAD = "Seq\tHost\tStarttime\tJobRuntime\tSend\tReceive\tExitval\tSignal\tCommand\n"


@dataclass(frozen=True)
class Entry:
    """A line: which job ended, where, and how."""

    job: int
    host: str
    status: int
    signal: int
    text: str


def entries(folder: str) -> list[Entry]:
    """All whole lines of the log."""
    found = []
    try:
        with open(os.path.join(folder, FILE), encoding="utf-8", errors="replace") as file:
            for line in file:
                parts = line.split("\t", 8)
                if len(parts) == 9 and line.endswith("\n") and parts[0].isdecimal():
                    found.append(Entry(int(parts[0]), parts[1], int(parts[6]), int(parts[7]), line))
    except FileNotFoundError:
        pass
    return found


def keep_done(folder: str, done: set[int]) -> None:
    """Leaves in the log one line for each job that is done, so that all others are done again, and no other is."""
    kept = {it.job: it.text for it in entries(folder) if not it.status and not it.signal and it.job in done}
    path = os.path.join(folder, FILE)
    with open(f"{path}.new", "w", encoding="utf-8") as file:
        file.writelines([HEAD, *(kept.get(job) or line_of(job, 0, 0, 0, "was done before") for job in sorted(done))])
    os.replace(f"{path}.new", path)


def line_of(job: int, begin: float, seconds: float, status: int, command: str) -> str:
    """A line, of a job that was done here."""
    return f"{job}\t:\t{begin:.3f}\t{seconds:10.3f}\t0\t0\t{status}\t0\t{command}\n"


def add(folder: str, job: int, begin: float, seconds: float, status: int, command: str) -> None:
    """A line more, of a job that was done here."""
    with open(os.path.join(folder, FILE), "a", encoding="utf-8") as file:
        file.write(line_of(job, begin, seconds, status, command))
