"""A long text is read in pieces, each by a process of its own, at the same time.

A process looks at the lines before its piece (`before`), reads its piece, and goes on until what the piece has waits for no later line. What
it found is joined with what the processes of earlier pieces found, and that is what one process finds that reads all: the first refusal too.
One case is left to that one process: a check by a cgroup's own domain depends on all such checks before it (`scale`).
"""
from __future__ import annotations

import contextlib
import gc
import mmap
import os
import pickle
import selectors
import signal
from collections.abc import Callable, Collection, Iterator
from dataclasses import dataclass
from itertools import takewhile
from typing import Any, BinaryIO, NamedTuple, Protocol, TypeVar

from laws.clock import Clock
from program.errors import Error, Fault

from .before import Before
from .joining import Estimated, Free, Joined, Joiner, Taker
from .reading import OtherClock, Progress, Reader, Source, Text
from .scale import Scale
from .tracepoints import Bad, State

MOST_PROCESSES = 4
"""Each takes some forty megabytes."""

LEAST_PIECE = 4 << 20
"""Bytes of a piece, for which a process is worth its while."""

LOOK = 0.13
"""How long looking at a line takes, as a part of reading it."""

OFTEN = 0.5
"""Seconds after which the progress of all pieces is looked at."""

PLACE = 8
"""Bytes that hold how far a process is."""


class Joinable(Taker, Protocol):
    """Takes a piece of a text."""

    text: Text

    def follow(self, sampled: float) -> None:
        """Lines went before, the last estimate of which was printed at this time."""

    def join(self: J, other: J) -> None:
        """Adds what another one took that follows."""


J = TypeVar("J", bound=Joinable)


class InOrder(Exception):
    """A check depends on those of its cgroup before the piece."""


class Unknown(Scale):
    """How many times its freerun the threshold of a cgroup is, where checks before the piece would tell it."""

    def open(self, state: State) -> tuple[int, int]:
        """Isn't known."""
        raise InOrder


class Refused(NamedTuple):
    """An error, which a process can't hand on as it is: its kind, and what is in it."""

    kind: type[Exception]
    args: tuple[object, ...]
    names: dict[str, object]


@dataclass(frozen=True)
class Whole:
    """A text as a whole: what its pieces have in common."""

    file: BinaryIO
    path: str
    clock: Clock
    is_guessed: bool
    strict: Collection[str]

    @property
    def size(self) -> int:
        """Its bytes."""
        return os.fstat(self.file.fileno()).st_size


class Rest:
    """Takes what is still of a piece, and not what follows."""

    def __init__(self, taker: Taker, last: int) -> None:
        self.taker = taker
        self.last = last
        """The number of its last line."""

    def free(self, free: Free) -> None:
        """A free writer shows by the check that follows, whose piece it is of."""

    def check(self, joined: Joined) -> None:
        """A check."""
        if joined.check.line <= self.last:
            self.taker.check(joined)

    def estimate(self, estimated: Estimated) -> None:
        """An estimate's line."""
        if estimated.sample.line <= self.last:
            self.taker.estimate(estimated)


def read_piece(whole: Whole, make: Callable[[Text], J], begin: int, end: int, tell: Callable[[int], None] | None = None) -> J:
    """What takes the lines from one place of a text to another."""
    text = Text(whole.path, whole.clock)
    taker = make(text)
    joiner = Joiner(taker, whole.strict)
    reader = Reader(whole.file, text, whole.is_guessed)
    if begin:
        before = Before(Source(whole.file, 0, begin))
        before.begin(reader, joiner)
        taker.follow(before.sampled)
        joiner.scale = Unknown
    joiner.take(reader.lines(begin, end, tell))
    if end == whole.size:
        joiner.end()
    else:
        go_on(reader, joiner, end)
    return taker


def go_on(reader: Reader, joiner: Joiner, end: int) -> None:
    """Reads on until nothing waits that is before the end of a piece. A line that is refused there is of another piece."""
    last = reader.number
    joiner.taker = Rest(joiner.taker, last)
    reader.text = Text(reader.text.path, reader.text.clock)
    lines = takewhile(lambda _: joiner.is_waiting(last), reader.lines(end, tell=lambda _: None))
    with contextlib.suppress(Fault, OtherClock):
        joiner.take(lines)
    if joiner.is_waiting(last):
        joiner.give(len(joiner.waiting))


def processes(size: int) -> int:
    """How many are worth their while: at most one a processor."""
    return max(min(len(os.sched_getaffinity(0)), MOST_PROCESSES, size // LEAST_PIECE), 1)


def cuts(file: BinaryIO, size: int, many: int) -> list[int]:
    """Where the pieces begin and end: the later a piece, the smaller, as more stands before it."""
    parts = [(1 - LOOK) ** at for at in range(many)]
    found = [0]
    for at in range(1, many):
        place = int(size * sum(parts[:at]) / sum(parts))
        found.append(max(Source(file).next_line(place), found[-1]))
    return sorted({*found, size})


def read_pieces(whole: Whole, make: Callable[[Text], J], places: list[int]) -> J | None:
    """What takes the text, cut at these places. Nothing, where its order matters, or a process came to no end."""
    pieces = list(zip(places, places[1:]))
    progress = Progress(whole.file, whole.path)
    found: dict[int, Any] = {}
    with mmap.mmap(-1, PLACE * len(pieces)) as told, started(whole, make, pieces, told) as pipes:
        for pipe, answer in answers(pipes, lambda: progress.tell(sum(int.from_bytes(told[at:at + PLACE], "little")
                                                                     for at in range(0, len(told), PLACE)))):
            if answer is None:
                return None
            found[pipe] = answer
            for earlier in takewhile(lambda it: it in found, pipes):
                if isinstance(found[earlier], Exception):
                    raise found[earlier]
    first: J = found[pipes[0]]
    for pipe in pipes[1:]:
        first.join(found[pipe])
    return first


@contextlib.contextmanager
def started(whole: Whole, make: Callable[[Text], J], pieces: list[tuple[int, int]], told: mmap.mmap) -> Iterator[list[int]]:
    """A process for each piece, and from where its answer is read. None is left in the end."""
    children, pipes = [], []
    try:
        for at, piece in enumerate(pieces):
            out, into = os.pipe()
            pipes.append(out)
            child = os.fork()
            if not child:
                answer(whole, make, piece, into, told, at)
            children.append(child)
            os.close(into)
        yield pipes
    finally:
        for child in children:
            with contextlib.suppress(ProcessLookupError):
                os.kill(child, signal.SIGKILL)
            os.waitpid(child, 0)
        for out in pipes:
            os.close(out)


def answer(whole: Whole, make: Callable[[Text], J], piece: tuple[int, int], into: int, told: mmap.mmap, at: int) -> None:
    """What a process does: it writes what it found, or what it refuses, and ends."""
    begin, end = piece

    def tell(place: int) -> None:
        told[at * PLACE:(at + 1) * PLACE] = (place - begin).to_bytes(PLACE, "little")

    try:
        gc.disable()
        try:
            found: object = read_piece(whole, make, begin, end, tell)
        except (Error, OtherClock, Bad) as error:
            found = Refused(type(error), error.args, error.__dict__)
        except InOrder:
            found = None
        with os.fdopen(into, "wb") as file:
            pickle.dump(found, file, pickle.HIGHEST_PROTOCOL)
        os._exit(0)
    finally:
        os._exit(1)


def answers(pipes: list[int], look: Callable[[], None]) -> Iterator[tuple[int, object]]:
    """What each process found, once it did: nothing where its piece is to be read in order, or it came to no end."""
    parts: dict[int, list[bytes]] = {pipe: [] for pipe in pipes}
    with selectors.DefaultSelector() as waiting:
        for pipe in pipes:
            waiting.register(pipe, selectors.EVENT_READ)
        while waiting.get_map():
            for key, _ in waiting.select(OFTEN):
                parts[key.fd].append(os.read(key.fd, 1 << 16))
                if not parts[key.fd][-1]:
                    waiting.unregister(key.fd)
                    yield key.fd, answer_in(b"".join(parts.pop(key.fd)))
            look()


def answer_in(whole: bytes) -> object:
    """What was found, or what is refused."""
    try:
        found = pickle.loads(whole)
    except (EOFError, pickle.UnpicklingError):
        return None
    if not isinstance(found, Refused):
        return found
    error = found.kind.__new__(found.kind, *found.args)
    error.__dict__.update(found.names)
    return error
