"""A text of tracepoints, line by line, and how many ticks a second the kernel has that printed it.

No line is kept. A text that is damaged is refused at the line and the column; only its last line may be cut, as a pipe leaves it that is
interrupted, and is dropped then. A standard input, which can't be read again, goes to a file without a name first.
"""
from __future__ import annotations

import os
import re
import shutil
import stat
import sys
import tempfile
import time
from collections.abc import Callable, Iterable, Iterator
from contextlib import contextmanager
from dataclasses import dataclass, field
from itertools import chain
from typing import BinaryIO, NamedTuple

from laws.clock import Clock
from program.errors import Cause, Fault, OtherWords, ReadFault

from .common import read_common
from .heads import Heads
from .tracepoints import LOST, Bad, Balance, Line, Sample, State, read_line

SECONDS = (100, 250, 300, 1000)
"""The numbers of ticks a second with which kernels are built."""

APART = 0.01
"""Seconds: lines of two CPUs may stand in another order than they were printed in, by at most so much; those of one CPU never."""

FIRST_LOOK = 1 << 22
"""Bytes of a text by whose spans the ticks a second are guessed; all others are held against the guess."""

SPANS = re.compile(rb" paused=(\d{1,9}) pause=(-?\d{1,9}) period=(\d{1,9}) think=(-?\d{1,9})\b")
CHUNK = 1 << 20
"""Bytes that are read at once."""

SPARSE = 5.0
"""Seconds between two words on how far the reading is."""


class OtherClock(Exception):
    """A span was printed that no clock has of so many ticks a second as were guessed."""


class Lost(NamedTuple):
    """The kernel says that it lost lines here."""

    line: int


@dataclass
class Text:
    """A text, and what was seen of it so far. Its lines are there where they were gathered."""

    path: str
    clock: Clock = Clock()
    lost: int = 0
    cut: str = ""
    lines: list[Line] = field(default_factory=list)
    disks_seen: set[str] = field(default_factory=set)
    states_seen: int = 0

    @property
    def samples(self) -> list[Sample]:
        """The estimates."""
        return [line for line in self.lines if isinstance(line, Sample)]

    @property
    def states(self) -> list[State]:
        """The states of the global domain."""
        return [line for line in self.lines if isinstance(line, State)]

    @property
    def disks(self) -> list[str]:
        """The disks that were written, in order of their names."""
        return sorted(self.disks_seen)


    def join(self, other: Text) -> None:
        """Adds what was seen of what follows."""
        self.lost += other.lost
        self.cut = other.cut
        self.disks_seen |= other.disks_seen
        self.states_seen += other.states_seen


@contextmanager
def opened(path: str) -> Iterator[tuple[str, BinaryIO]]:
    """The name of a text, and its bytes, which can be read more than once."""
    name = "standard input" if path == "-" else path
    try:
        with open(0 if path == "-" else path, "rb", closefd=path != "-") as file:
            if stat.S_ISREG(os.fstat(file.fileno()).st_mode) and path != "-":
                yield name, file
                return
            with tempfile.TemporaryFile() as kept:
                shutil.copyfileobj(file, kept)
                yield name, kept
    except OSError as error:
        raise ReadFault(f"{name}: {error.strerror or error}") from error


def guessed_second(file: BinaryIO, name: str) -> int:
    """The ticks a second by the spans at the beginning of a text."""
    file.seek(0)
    found = {abs(int(span)) for spans in SPANS.findall(file.read(FIRST_LOOK)) for span in spans}
    return fewest(found, name)


def fewest(spans: Iterable[int], name: str) -> int:
    """The fewest ticks a second by which all these spans could be printed."""
    spans = set(spans)
    for second in SECONDS:
        clock = Clock(second)
        if all(is_printed(span, clock) for span in spans):
            return second
    raise OtherWords(f"{name}: the spans of its checks are of no number of ticks a second known here: --hz says it")


def is_printed(span: int, clock: Clock) -> bool:
    """Whether a clock has a number of ticks that is printed so."""
    return clock.milliseconds(clock.ticks[span]) == span


class Reader:
    """Reads a text, or a part of it."""

    def __init__(self, file: BinaryIO, text: Text, is_guessed: bool) -> None:
        self.file = file
        self.text = text
        self.heads = Heads()
        self.order = Order()
        self.fits = Fits(text.clock, is_guessed)
        self.number = 0
        """Of the last line that was read."""

    def lines(self, begin: int = 0, end: int | None = None, tell: Callable[[int], None] | None = None) -> Iterator[Line | Lost]:
        """The lines of the three tracepoints from one place to another. Raises `OtherClock` where the clock was guessed and a span isn't of
        it."""
        text, heads, order, fits = self.text, self.heads, self.order, self.fits
        times, disks, known, states, latest, number = order.times, text.disks_seen, heads.known, 0, order.latest, self.number
        is_guessed, spans = fits.is_guessed, fits.known
        source = Source(self.file, begin, end, tell or Progress(self.file, text.path).tell)
        for number, line in enumerate(source.lines(), number + 1):
            read = read_common(number, line) or read_other(number, line, heads, text.path)
            if read is None:
                if found := LOST.match(line):
                    text.lost += int(found[1] or found[2] or 1)
                    yield Lost(number)
                continue
            moment = read[3]
            if moment < latest:
                order.look(text.path, read, line, latest)
            else:
                latest = moment
            times[read[2]] = moment
            if read[1] not in known:
                heads.learn(read[1])
            kind = type(read)
            if kind is State:
                states += 1
            elif kind is Balance:
                if is_guessed and not spans.issuperset(read[14:18]):
                    fits.look(read)  # type: ignore[arg-type]
                disks.add(read[4])  # type: ignore[arg-type]
            yield read
        self.number, order.latest = number, latest
        text.states_seen += states
        if source.rest:
            text.cut = f"line {number + 1} is cut: dropped"


class Source:
    """The lines of a file from one place to another, without their ends. What stands there after the last end is the rest."""

    def __init__(self, file: BinaryIO, begin: int = 0, end: int | None = None, tell: Callable[[int], None] = lambda _: None) -> None:
        self.file = file.fileno()
        self.place = begin
        """Where the lines begin that were read last."""

        self.brackets = 0
        """How many open in them."""

        self.end = os.fstat(self.file).st_size if end is None else end
        self.tell = tell
        """Is told how far it is read."""

        self.rest = ""

    def lines(self) -> Iterator[str]:
        """One after another."""
        return chain.from_iterable(self.chunks())

    def chunks(self) -> Iterator[list[str]]:
        """Many at once. Other processes may read the same file, so that it has no place of its own."""
        at = self.place
        while at < self.end and (found := os.pread(self.file, min(CHUNK, self.end - at), at)):
            self.place = at - len(self.rest)
            at += len(found)
            text = self.rest + found.decode("latin-1")
            lines = text.split("\n")
            self.rest = lines.pop()
            self.brackets = text.count("[", 0, len(text) - len(self.rest))
            self.tell(at)
            yield lines

    def between(self, begin: int, end: int) -> list[str]:
        """The lines between two places at which some begin."""
        return os.pread(self.file, end - begin, begin).decode("latin-1").split("\n")[:-1]

    def next_line(self, place: int) -> int:
        """Where the first line begins that does so at a place or after it."""
        before = place - 1
        while place and (part := os.pread(self.file, CHUNK, before)):
            if (at := part.find(b"\n")) >= 0:
                return before + at + 1
            before += len(part)
        return self.end if place else 0


def read_other(number: int, line: str, heads: Heads, path: str) -> Line | None:
    """What any line tells; nothing where it is of no tracepoint here."""
    try:
        return read_line(number, line, heads)
    except Bad as bad:
        cause = Cause.OUT_OF_RANGE if bad.is_range else Cause.BAD_LINE
        raise Fault(path, number, cause, str(bad), bad.place + 1) from None


class Order:
    """The times of a text: they don't run backwards."""

    def __init__(self) -> None:
        self.times: dict[int, float] = {}
        """Of each CPU."""

        self.latest = 0.0

    def look(self, path: str, read: Line, line: str, latest: float) -> None:
        """A line before the latest time."""
        before = self.times.get(read.cpu, 0.0)
        if read.time < before or read.time < latest - APART:
            since = latest if read.time < latest - APART else before
            column = line.find(f"{read.time:.6f}"[:-3]) + 1
            raise Fault(path, read.line, Cause.OUT_OF_PLACE, f"time runs backwards, from {since:.6f} to {read.time:.6f} s", column)


class Fits:
    """Whether the spans of checks are of a clock."""

    def __init__(self, clock: Clock, is_guessed: bool) -> None:
        self.clock = clock
        self.known: set[int] = set()
        self.is_guessed = is_guessed

    def look(self, check: Balance) -> None:
        """A check that has a span which isn't known to be of it."""
        for span in check[14:18]:
            if not is_printed(abs(span), self.clock):
                raise OtherClock
            self.known.add(span)


class Progress:
    """Says now and then on standard error how far a long text is read."""

    def __init__(self, file: BinaryIO, path: str) -> None:
        self.path = path
        self.size = os.fstat(file.fileno()).st_size
        self.said = time.monotonic()

    def tell(self, at: int) -> None:
        """A word, where the last is a while ago."""
        now = time.monotonic()
        if now - self.said >= SPARSE:
            self.said = now
            print(f"wb: {self.path}: {at >> 20} of {self.size >> 20} MiB", file=sys.stderr)
