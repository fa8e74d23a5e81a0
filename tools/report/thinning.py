"""Long series in bounded memory, with their peaks.

The axis is cut into bins of one width, a power of two, which doubles where there are too many. Of a curve the first, the least, the
greatest and the last value of each bin stay, each at its own place. Of items, as checks are, those stay that are the greatest of their
bin by one of the measures. So no peak is lost, and what is shown stood in the journal.
"""
from __future__ import annotations

from collections.abc import Callable, Hashable, Sequence
from typing import Generic, NamedTuple, TypeVar

MOST_BINS = 2048
"""More than a page is wide, in dots."""

MOST_ITEM_BINS = 2048
"""Of all sorts together: each item has a text of its own, and is drawn in several parts."""

CURVE_RULE = ("A curve of more than {bins} moments is thinned: time is cut into bins of equal width, and of each bin the first, the "
              "least, the greatest and the last value stay, each at its own moment. Its bins are {width} wide.")
CHECK_RULE = ("{kept} of {many} checks are shown. Time is cut into bins of equal width, here {width}; of a task's checks of one kind in a "
              "bin the one with the longest pause stays, and the one that read the most pages. The tables are of all checks.")

Item = TypeVar("Item")


class Point(NamedTuple):
    """A value at a place; of those at one place, which came as what."""

    place: int
    turn: int
    value: int


class Thinned:
    """A curve of values, each of which holds from its place on until the next one."""

    def __init__(self, most: int = MOST_BINS) -> None:
        self._most = most
        self._shift = 0
        self._turn = 0
        self._bins: dict[int, list[Point]] = {}

    @property
    def width(self) -> int:
        """Places of a bin: 1 where the curve isn't thinned."""
        return 1 << self._shift

    def add(self, place: int, value: int) -> None:
        """The value from this place on. Values of one place come in their order."""
        self._turn += 1
        point = Point(place, self._turn, value)
        there = self._bins.get(place >> self._shift)
        if there is not None:
            merge(there, [point] * 4)
            return
        self._bins[place >> self._shift] = [point] * 4
        while len(self._bins) > self._most:
            self._coarsen()

    def points(self) -> tuple[list[int], list[int]]:
        """Places and values by place, but for values that are those before them."""
        kept = sorted({point for of_bin in self._bins.values() for point in of_bin})
        told = [point for before, point in zip([None, *kept], kept) if before is None or before.value != point.value]
        return [point.place for point in told], [point.value for point in told]

    def __len__(self) -> int:
        return len(self._bins)

    def _coarsen(self) -> None:
        self._shift += 1
        finer, self._bins = self._bins, {}
        for key, points in finer.items():
            merge(self._bins.setdefault(key >> 1, list(points)), points)


def merge(into: list[Point], points: Sequence[Point]) -> None:
    """Puts the first, least, greatest and last of a bin to those of another. Of equal values the one that stands there stays."""
    first, least, greatest, last = points
    if first < into[0]:
        into[0] = first
    if least.value < into[1].value:
        into[1] = least
    if greatest.value > into[2].value:
        into[2] = greatest
    if last > into[3]:
        into[3] = last


class Peaks(Generic[Item]):
    """Items at places, each of a sort: all of them where they are few. Else in a bin of a sort those stay that are the greatest by a
    measure, the earlier of equal ones."""

    def __init__(self, measures: Sequence[Callable[[Item], int]], most: int = MOST_ITEM_BINS) -> None:
        self._measures = measures
        self._most = most
        self._shift: int | None = None
        self._bins: dict[tuple[Hashable, int], list[tuple[int, Item]]] = {}
        self._sorts: set[Hashable] = set()
        self.many = 0

    @property
    def width(self) -> int:
        """Places of a bin, 0 where all items stay."""
        return 0 if self._shift is None else 1 << self._shift

    def add(self, sort: Hashable, place: int, item: Item) -> None:
        """One item more."""
        self.many += 1
        self._sorts.add(sort)
        self._put(sort, self.many, [(place, item)] * len(self._measures))
        while len(self._bins) > max(self._most, len(self._sorts)):
            self._coarsen()

    def all(self) -> list[Item]:
        """The items that stay, by their places."""
        found = {id(put): (put[0], turn, put[1]) for turn, items in enumerate(self._bins.values()) for put in items}
        return [item for _, _, item in sorted(found.values(), key=lambda it: it[:2])]

    def _put(self, sort: Hashable, turn: int, items: Sequence[tuple[int, Item]]) -> None:
        key = turn if self._shift is None else items[0][0] >> self._shift
        there = self._bins.setdefault((sort, key), list(items))
        for number, (measure, new) in enumerate(zip(self._measures, items)):
            if measure(new[1]) > measure(there[number][1]):
                there[number] = new

    def _coarsen(self) -> None:
        self._shift = 0 if self._shift is None else self._shift + 1
        finer, self._bins = self._bins, {}
        for (sort, turn), items in finer.items():
            self._put(sort, turn, items)
