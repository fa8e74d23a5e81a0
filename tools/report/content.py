"""What a report says, whatever it is of. The page shows it, and needs nothing else.

Places are those of the axis: ticks or seconds. A colour is named by its role, which the page knows for light and for dark.
"""
from __future__ import annotations

from dataclasses import asdict, dataclass, field
from typing import Any

Number = float
"""Whole numbers stay whole."""


@dataclass
class Axis:
    """The axis from left to right: its name, the unit of a place, from where to where, and how many of it are a second."""

    name: str
    unit: str
    first: Number
    last: Number
    second: int


@dataclass
class Line:
    """A curve, each value of which holds until the next one."""

    name: str
    role: str
    x: list[Number]
    y: list[Number]
    dash: str = "solid"
    width: float = 1.3


@dataclass
class Dots:
    """Checks as points, each with its number among the checks that are shown."""

    name: str
    role: str
    x: list[Number]
    y: list[Number]
    check: list[int]
    symbol: str = "circle"


@dataclass
class Bars:
    """Pauses as bars: where each begins, how long it is, the foot on which it stands, its height, and the number of its check."""

    name: str
    role: str
    x: list[Number]
    length: list[Number]
    foot: list[Number]
    height: list[Number]
    check: list[int]


@dataclass
class Panel:
    """A part of the figure, with an axis of its own from bottom to top: of numbers, or of rows that have names."""

    title: str
    unit: str
    height: int
    lines: list[Line] = field(default_factory=list)
    dots: list[Dots] = field(default_factory=list)
    bars: list[Bars] = field(default_factory=list)
    rows: list[str] = field(default_factory=list)
    is_log: bool = False
    top: Number = 0
    """How far up it is seen at first; 0: as far as anything of it reaches."""


@dataclass
class CheckText:
    """What is said of a check: where and what, a sentence, and the numbers behind it, one line each."""

    head: str
    sentence: str
    why: list[str]


@dataclass
class Table:
    """A table: the first column has words, the others numbers."""

    title: str
    head: list[str]
    rows: list[list[str]]
    is_open: bool = True


@dataclass
class Report:
    """All of it. A text is shown as it is, under its title."""

    title: str
    facts: list[str]
    axis: Axis
    panels: list[Panel]
    checks: list[CheckText]
    tables: list[Table]
    texts: list[tuple[str, str]]
    notes: list[str]

    def as_json(self) -> dict[str, Any]:
        """As the page reads it."""
        return asdict(self)


def put_together(lines: list[Line]) -> list[Line]:
    """Those that have a point."""
    return [line for line in lines if line.x]
