"""How far the runs of a folder are, and the time to the end: a line that is written over itself on a terminal, else one at times."""
from __future__ import annotations

import os
import sys
import threading
import time
from collections.abc import Iterator
from contextlib import contextmanager
from typing import TextIO

from . import files
from .plan import Plan

SECONDS_BETWEEN, SECONDS_BETWEEN_LINES = 0.5, 30.0


class Count:
    """How many runs have their rows. A job that is done is counted once."""

    def __init__(self, folder: str, planned: Plan, said: str) -> None:
        self.folder, self.planned, self.said = folder, planned, said
        self.done = 0
        self.open = set(range(1, planned.jobs + 1))

    def made(self) -> int:
        """The rows that are there now: of jobs that are done, of others, and those that came from hosts."""
        for job in [job for job in self.open if os.path.exists(files.done_path(self.folder, job))]:
            self.open.remove(job)
            self.done += len(self.planned.runs_of(job))
        begun = sum(files.read(files.part_path(self.folder, job)).count(b"\n") for job in self.open)
        return min(self.done + begun + files.read(self.said).count(b"\n"), self.planned.runs)


def sentence(made: int, runs: int, before: int, seconds: float) -> str:
    """How far it is, and the time to the end, which is told by the runs that were made in these seconds."""
    text = f"{made} of {runs} runs, {100 * made // runs} percent"
    if made > before:
        text += f", {duration((runs - made) * seconds / (made - before))} to the end"
    return text


def duration(seconds: float) -> str:
    """Hours and minutes, minutes and seconds, or seconds."""
    whole = round(seconds)
    if whole >= 3600:
        return f"{whole // 3600} h {whole % 3600 // 60} min"
    return f"{whole // 60} min {whole % 60} s" if whole >= 60 else f"{whole} s"


@contextmanager
def watched(folder: str, planned: Plan, said: str, stream: TextIO | None = None) -> Iterator[None]:
    """Tells how far it is while the block lasts."""
    stream = sys.stderr if stream is None else stream
    count, is_over = Count(folder, planned, said), threading.Event()
    teller = threading.Thread(target=tell, args=(count, is_over, stream), daemon=True)
    teller.start()
    try:
        yield
    finally:
        is_over.set()
        teller.join()


def tell(count: Count, is_over: threading.Event, stream: TextIO) -> None:
    """A line at a time, until it is over."""
    is_seen = stream.isatty()
    begin, before, shown = time.monotonic(), count.made(), False
    while not is_over.wait(SECONDS_BETWEEN if is_seen else SECONDS_BETWEEN_LINES):
        text = sentence(count.made(), count.planned.runs, before, time.monotonic() - begin)
        stream.write(f"\r\033[K{text}" if is_seen else f"wb: {text}\n")
        stream.flush()
        shown = is_seen
    if shown:
        stream.write("\r\033[K")
        stream.flush()
