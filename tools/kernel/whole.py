"""What takes a whole text: by one process or by several, as it is read, or with all of it in memory."""
from __future__ import annotations

import gc
import sys
from collections.abc import Callable, Collection, Iterable, Iterator
from dataclasses import dataclass, field
from typing import TypeVar

from laws.clock import Clock
from program.errors import Cause, Fault, OtherWords

from .joining import Estimated, Free, Joined, Joiner, Taker
from .pieces import Joinable, Whole, cuts, processes, read_pieces
from .reading import SECONDS, Lost, OtherClock, Reader, Text, guessed_second, opened
from .tracepoints import Line


@dataclass
class Story:
    """A text, joined, and all of it in memory."""

    text: Text
    checks: list[Joined] = field(default_factory=list)
    estimates: list[Estimated] = field(default_factory=list)
    frees: list[Free] = field(default_factory=list)

    def free(self, free: Free) -> None:
        """Keeps it."""
        self.frees.append(free)

    def check(self, joined: Joined) -> None:
        """Keeps it."""
        self.checks.append(joined)

    def estimate(self, estimated: Estimated) -> None:
        """Keeps it."""
        self.estimates.append(estimated)


T = TypeVar("T", bound=Taker)
J = TypeVar("J", bound=Joinable)


def told(path: str, second: int | None, strict: Collection[str], make: Callable[[Text], T], is_kept: bool = False) -> T:
    """What takes the text of a file, after all of it."""
    def take(whole: Whole) -> tuple[T, Text]:
        return taken(whole, make, is_kept)

    return by_clocks(path, second, strict, take)


def told_in_pieces(path: str, second: int | None, strict: Collection[str], make: Callable[[Text], J]) -> J:
    """The same by several processes, where the text is long."""
    def take(whole: Whole) -> tuple[J, Text]:
        many = processes(whole.size)
        found = read_pieces(whole, make, cuts(whole.file, whole.size, many)) if many > 1 else None
        return (found, found.text) if found else taken(whole, make, False)

    return by_clocks(path, second, strict, take)


def by_clocks(path: str, second: int | None, strict: Collection[str], take: Callable[[Whole], tuple[T, Text]]) -> T:
    """What `take` takes. It is done again where the first spans of a text let one guess too few ticks a second."""
    with opened(path) as (name, file):
        least = second or guessed_second(file, name)
        for clock in [second] if second else [it for it in SECONDS if it >= least]:
            try:
                found, text = take(Whole(file, name, Clock(clock), second is None, strict))
            except OtherClock:
                continue
            look(text, strict)
            return found
    raise OtherWords(f"{name}: the spans of its checks are of no number of ticks a second known here: --hz says it")


def taken(whole: Whole, make: Callable[[Text], T], is_kept: bool) -> tuple[T, Text]:
    """What takes the text, by this process alone."""
    text = Text(whole.path, whole.clock)
    taker = make(text)
    joiner = Joiner(taker, whole.strict, is_kept)
    take_all(Reader(whole.file, text, whole.is_guessed).lines(), joiner, text)
    return taker, text


def take_all(lines: Iterator[Line | Lost], joiner: Joiner, text: Text) -> None:
    """Gives all lines to a joiner. Nothing here refers to what refers to it, so that no search for such circles is needed."""
    is_collecting = gc.isenabled()
    gc.disable()
    try:
        joiner.take(kept(lines, text) if joiner.is_kept else lines)
        joiner.end()
    finally:
        if is_collecting:
            gc.enable()


def kept(lines: Iterable[Line | Lost], text: Text) -> Iterator[Line | Lost]:
    """The lines, which are kept too."""
    for line in lines:
        if not isinstance(line, Lost):
            text.lines.append(line)
        yield line


def look(text: Text, strict: Collection[str]) -> None:
    """Whether all is there that a text needs, and a word on what of it is left out."""
    if not text.disks_seen:
        raise Fault(text.path, 0, Cause.MISSING, "it has no line of balance_dirty_pages: no writer was held back, or the event was off")
    if not text.states_seen:
        raise Fault(text.path, 0, Cause.MISSING, "it has no line of global_dirty_state")
    disks = sorted({disk.partition(" ")[0] for disk in text.disks_seen})
    for disk in strict:
        if disk not in disks:
            raise OtherWords(f"--strict {disk}: no check is of that disk, there are {', '.join(disks)}")
    if text.cut:
        print(f"wb: {text.path}: {text.cut}", file=sys.stderr)


def story_of(path: str, second: int | None = None, strict: Collection[str] = ()) -> Story:
    """A text with all its lines."""
    return told(path, second, strict, Story, True)
