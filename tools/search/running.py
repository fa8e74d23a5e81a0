"""A run of a trace, and what it came to."""
from __future__ import annotations

import os
from collections import namedtuple

from program.errors import NotThere

TYPE_CHECKING = False
if TYPE_CHECKING:
    from mmap import mmap
    from typing import Any, BinaryIO

    from journals.trace import Trace

LONG = 1 << 20
"""Bytes of the longest journal that is copied."""

SPENT = 7
"""The status of a run that had made the most steps: its journal is whole."""

EVERY = 100
"""Ticks of the intervals of a forecast that goes on where a replay is spent."""


class Measured(namedtuple("Measured", "pauses paused longest waits pages ticks greatest bound distance ending")):
    """What a run came to. Pages, ticks; the pages a second are those of the whole run. Of a run over threads, whose journal has no steps,
    the greatest count is one that a check read, and the distance is to that. A forecast doesn't tell waits, and its last tick is the end of its
    last interval."""

    __slots__ = ()

    @property
    def throughput(self) -> float:
        """Pages that were completed in a second."""
        return 1000 * self.pages / max(self.ticks - 1, 1)


COLUMNS = ("pauses", "paused_ticks", "longest_pause_ticks", "waits", "pages", "ticks", "pages_a_second", "greatest_count", "bound",
           "least_distance", "ending")


def row(it: Measured) -> list[str]:
    """Its values, in the order of the columns."""
    return ["" if value is None else str(value) for value in (it.pauses, it.paused, it.longest, it.waits, it.pages, it.ticks,
                                                              f"{it.throughput:.1f}", it.greatest, it.bound, it.distance, it.ending)]


def of_row(values: dict[str, Any]) -> Measured:
    """The same from a row that has its fields among others."""
    return Measured(*[values[name] for name in Measured._fields])


def read(name: str, text: str) -> Trace:
    """The trace of a text. Raises `Fault` where it is none."""
    from journals.trace_reader import trace_of
    from journals.whole_text import WholeText

    return trace_of(WholeText(name, text.encode("latin-1")))


class Runner:
    """Runs traces, one after another, by one program: these were read before, so that the program refuses none. A short journal that came before
    of the same trace isn't read again."""

    def __init__(self, words: list[str]) -> None:
        self.words = words
        self.given, self.journal, self.said = (in_memory(name) for name in ("trace", "journal", "said"))
        self.text: str | None = None
        self.known: tuple[bytes, Measured] | None = None
        self.environment = dict(os.environb)

    def run(self, name: str, text: str) -> tuple[Measured, bytes | mmap]:
        """What the run of a trace came to, and its journal."""
        if text != self.text:
            self.text, self.known = text, None
            self.given.seek(0)
            self.given.truncate()
            self.given.write(text.encode("latin-1"))
        status = self.spawned()
        if status not in (0, SPENT):
            said = content(self.said)[:].decode("latin-1").strip().splitlines()
            raise NotThere(f"{name}: {self.words[0]} ended with {status}: {said[-1] if said else 'it said nothing'}")
        journal = content(self.journal)
        if isinstance(journal, bytes):
            if self.known is None or self.known[0] != journal:
                self.known = journal, measured(name, text, journal)
            return self.known[1], journal
        return measured(name, text, journal), journal

    def spawned(self) -> int:
        """The status of the program, whose texts are files: a pipe would have to be served."""
        for file in (self.journal, self.said):
            file.seek(0)
            file.truncate()
        self.given.seek(0)
        ends = [(os.POSIX_SPAWN_DUP2, file.fileno(), end) for end, file in enumerate((self.given, self.journal, self.said))]
        try:
            process = os.posix_spawn(self.words[0], self.words, self.environment, file_actions=ends)
        except OSError as error:
            raise NotThere(f"{self.words[0]} can't be run: {error.strerror or error}") from error
        return os.waitstatus_to_exitcode(os.waitpid(process, 0)[1])


def in_memory(name: str) -> BinaryIO:
    """A file that a program may read or write, and that no disk has."""
    return open(os.memfd_create(name), "w+b", buffering=0)


def content(file: BinaryIO) -> bytes | mmap:
    """What a program has written into a file. What is long isn't copied, and is there until the file is written again."""
    size = file.seek(0, os.SEEK_END)
    if size > LONG:
        import mmap

        return mmap.mmap(file.fileno(), size, access=mmap.ACCESS_READ)
    file.seek(0)
    return file.read()


def measured(name: str, text: str, journal: bytes) -> Measured:
    """What a journal of a trace says of the global domain and of all tasks."""
    from journals.figures import figures

    try:
        it = figures(text, journal)
    except ValueError as error:
        raise NotThere(f"{name}: its journal is none: {error}") from error
    if it.steps:
        greatest, bound, distance = it.steps.greatest, it.steps.bound, it.steps.distance
    else:
        greatest, bound = it.read, it.hard + fixed_bound_of(read(name, text))
        distance = bound - greatest
    return Measured(it.pauses, it.paused, it.longest, it.waits, it.pages, it.latest - it.begin + 1, greatest, bound, distance, it.ending)


def forecast(words: list[str], name: str, text: str) -> Measured:
    """What the forecast of a trace by a program says of the global domain and of all tasks."""
    from forecasting.figures import Figures
    from forecasting.running import forecast_by

    trace = read(name, text)
    figures = Figures(trace)
    with forecast_by(words, name, text.encode("latin-1"), trace, EVERY) as reader:
        for rows in reader.intervals():
            figures.take(rows)
    tasks, domain = figures.tasks, figures.domains[0]
    return Measured(sum(it.pauses for it in tasks), sum(it.ticks for it in tasks), max((it.longest for it in tasks), default=0), None,
                    reader.totals.done if reader.totals else 0, figures.intervals * EVERY, domain.most, domain.bound, domain.distance, reader.ending)


def fixed_bound_of(trace: Trace) -> int:
    """The bound of the global domain without its greatest hard limit."""
    from journals.bound import fixed_bound

    return fixed_bound(trace, 0)
