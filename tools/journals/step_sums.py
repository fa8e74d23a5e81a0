"""What the steps of a journal come to, by a pattern over its bytes. A journal has millions of steps, and few of them matter: an event for each
would take longer than the run."""
from __future__ import annotations

import re
from collections import namedtuple

TYPE_CHECKING = False
if TYPE_CHECKING:
    from mmap import mmap

    Buffer = bytes | mmap

LEAF, MOST_LINE = 1 << 13, 1 << 12
"""Bytes of steps of which each is looked at, and of the longest line."""

BEGIN, STEP = b"\nsteps\n", b"\nstep "
LINE = re.compile(rb"step ([0-9]+) (?:[0-9]+|timer) [a-z]+ ([0-9]+) ([0-9]+)(?: [0-9]+)*\n")
GROWING = re.compile(rb" dirty ([0-9]*) ?([0-9]*)")
"""The only kind of step after which a count is greater than before. A bound never falls, so they come nearest to each other there, or at the
first step."""


class StepSums(namedtuple("StepSums", "steps greatest bound distance")):
    """How many steps there are; of the first domain the greatest exact count, the bound where it came first, and the least distance."""

    __slots__ = ()


def steps_of(journal: Buffer) -> tuple[int, int]:
    """Where the lines of the steps begin and end; both are the end of the journal where there are none."""
    begin = journal.find(BEGIN)
    if begin < 0:
        return len(journal), len(journal)
    first = begin + len(BEGIN)
    last = journal.rfind(STEP, first - 1)
    return first, journal.find(b"\n", last + 1) + 1 if last >= 0 else first


def sums(journal: Buffer, first: int, end: int) -> StepSums | None:
    """What these lines come to; nothing where there is none. Raises `ValueError` where a line that is read is no step."""
    if first == end:
        return None
    one, last = place_at(journal, first, end), place_at(journal, journal.rfind(b"\n", first, end - 1) + 1 or first, end)
    if one.step != 1:
        raise ValueError("the first step isn't step 1")
    nearest = Nearest(journal)
    nearest.take([(one.count, one.bound), (last.count, last.bound)])
    nearest.look(one, last)
    return StepSums(last.step, nearest.greatest, nearest.bound, nearest.distance)


class Place(namedtuple("Place", "at step count bound")):
    """A line of a step: where it begins, its number, and the count and the bound of the first domain."""

    __slots__ = ()


def place_at(journal: Buffer, at: int, end: int) -> Place:
    """The line that begins there."""
    found = LINE.match(journal, at, end)
    if not found:
        raise ValueError("a line among the steps is none")
    return Place(at, *map(int, found.groups()))


class Nearest:
    """The greatest count, the bound where it came first, and the least distance, of all steps so far."""

    def __init__(self, journal: Buffer) -> None:
        self.journal = journal
        self.greatest, self.bound, self.distance = -1, 0, 1 << 62

    def take(self, pairs: list[tuple[int, int]]) -> None:
        """Counts and bounds more. A bound never falls, so of those with the greatest count the least is that of its first step."""
        for count, bound in pairs:
            if count > self.greatest or count == self.greatest and bound < self.bound:
                self.greatest, self.bound = count, bound
            if bound - count < self.distance:
                self.distance = bound - count

    def look(self, one: Place, other: Place) -> None:
        """At the steps between two. A step changes a count by at most 1, so that a count there is at most `most`: where that is too low to
        matter the lines aren't read."""
        most = (one.count + other.count + other.step - one.step) // 2
        if (most, -one.bound) <= (self.greatest, -self.bound) and one.bound - most >= self.distance:
            return
        at = self.journal.find(b"\n", (one.at + other.at) // 2) + 1
        if other.at - one.at <= LEAF or at >= other.at:
            try:
                self.take([(int(count), int(bound)) for count, bound in GROWING.findall(self.journal, one.at, other.at)])
            except ValueError:
                raise ValueError("a line among the steps is none") from None
            return
        between = place_at(self.journal, at, other.at + MOST_LINE)
        self.take([(between.count, between.bound)])
        for two in sorted(((one, between), (between, other)), key=lambda two: -two[0].count - two[1].count):
            self.look(*two)
