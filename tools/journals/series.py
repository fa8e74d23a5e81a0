"""Curves and bars of any length in bounded memory, as fine as a picture can show.

Places are whole numbers: moments or steps. Where there are too many, neighbours are put together, and the width of what is put
together doubles; of a curve the first, least, greatest and last value of each such piece stay.
"""
from __future__ import annotations

from bisect import bisect_left
from typing import NamedTuple, Protocol

MOST_PIECES = 4096
"""A picture is narrower, in dots."""


class Series(Protocol):
    """Values that hold from a place on until the next one, in bounded memory."""

    def add(self, place: int, value: int) -> None:
        """The value from this place on."""

    def points(self) -> tuple[list[int], list[int]]:
        """Places and values to draw, by place."""

    def __len__(self) -> int:
        """As many pieces as are kept."""


class Curve:
    """Values that hold from a place on until the next one."""

    def __init__(self) -> None:
        self._width = 1
        self._pieces: dict[int, list[int]] = {}

    def add(self, place: int, value: int) -> None:
        """The value from this place on. Values of one place come in their order."""
        piece = self._pieces.get(place // self._width)
        if piece is None:
            self._pieces[place // self._width] = [place, value, value, value, value]
            if len(self._pieces) > MOST_PIECES:
                self._coarsen()
            return
        if value < piece[2]:
            piece[2] = value
        elif value > piece[3]:
            piece[3] = value
        piece[4] = value

    def points(self) -> tuple[list[int], list[int]]:
        """Places and values to draw, by place: where a value was put together with others, all four stand at one place."""
        places, values = [], []
        for _, (place, *four) in sorted(self._pieces.items()):
            for value in four if len(set(four)) > 1 else four[:1]:
                places.append(place)
                values.append(value)
        return places, values

    def __len__(self) -> int:
        return len(self._pieces)

    def _coarsen(self) -> None:
        while len(self._pieces) > MOST_PIECES // 2:
            self._width *= 2
            finer, self._pieces = sorted(self._pieces.items()), {}
            for _, (place, first, least, most, last) in finer:
                piece = self._pieces.setdefault(place // self._width, [place, first, least, most, last])
                piece[2], piece[3], piece[4] = min(piece[2], least), max(piece[3], most), last


class Bar(NamedTuple):
    """A span with a height; of spans that were put together, the greatest."""

    begin: int
    end: int
    height: int


class Bars:
    """Bars by the places where they begin, each on its own as long as a picture can show it."""

    def __init__(self) -> None:
        self._width = 1
        self._pieces: dict[int, Bar] = {}

    def add(self, begin: int, end: int) -> None:
        """One bar more, as high as it is long."""
        self._put(Bar(begin, end, end - begin))
        while len(self._pieces) > MOST_PIECES:
            self._width *= 2
            finer, self._pieces = self._pieces, {}
            for each in finer.values():
                self._put(each)

    def all(self) -> list[Bar]:
        """The bars by their places."""
        return [bar for _, bar in sorted(self._pieces.items())]

    def _put(self, bar: Bar) -> None:
        piece = bar.begin // self._width
        there = self._pieces.get(piece, bar)
        self._pieces[piece] = Bar(min(there.begin, bar.begin), max(there.end, bar.end), max(there.height, bar.height))


class Passage:
    """At which step a moment came: of steps that go up with their moments, the first one of each moment."""

    MOST = 1 << 16

    def __init__(self) -> None:
        self._moments: list[int] = []
        self._steps: list[int] = []
        self._apart = 1

    def add(self, moment: int, step: int) -> None:
        """The moment of a step."""
        if self._moments and moment < self._moments[-1] + self._apart:
            return
        self._moments.append(moment)
        self._steps.append(step)
        if len(self._moments) > self.MOST:
            del self._moments[1::2], self._steps[1::2]
            self._apart = max(2 * self._apart, (self._moments[-1] - self._moments[0]) // self.MOST)

    def step(self, moment: int) -> int:
        """The first step at the moment or later; the last one known where none is."""
        place = bisect_left(self._moments, moment)
        return self._steps[min(place, len(self._steps) - 1)] if self._steps else 0
