"""The runs of a study by their numbers: the repeats of a setting stand together, and the settings of a trace."""
from __future__ import annotations

from collections import namedtuple
from itertools import product

from search.editing import parameter

TYPE_CHECKING = False
if TYPE_CHECKING:
    from collections.abc import Iterator
    from typing import Any


class Point(namedtuple("Point", "trace values repeat")):
    """A run: which trace, the values of the parameters in their order, and which repeat."""

    __slots__ = ()


def point_of(spec: dict[str, Any], run: int) -> Point:
    """The run of a number."""
    rest, repeat = divmod(run, spec["repeats"])
    values: list[int] = []
    for _, choices in reversed(spec["over"]):
        rest, at = divmod(rest, len(choices))
        values.insert(0, choices[at])
    return Point(rest, tuple(values), repeat)


def settings(spec: dict[str, Any], runs: int) -> Iterator[Point]:
    """The first repeat of each trace with each setting."""
    return (point_of(spec, run) for run in range(0, runs, spec["repeats"]))


def corners(spec: dict[str, Any]) -> Iterator[Point]:
    """Of each trace the settings with the least or the greatest value of each parameter."""
    ends = [sorted({min(values), max(values)}) for _, values in spec["over"]]
    return (Point(trace, values, 0) for trace in range(len(spec["traces"])) for values in product(*ends))


def changed(spec: dict[str, Any], text: str, values: tuple[int, ...]) -> str:
    """The text of a trace with these values."""
    for (name, _), value in zip(spec["over"], values):
        text = parameter(name).changed(text, value)
    return text


def name_of(spec: dict[str, Any], point: Point) -> str:
    """The name of a run, as 'settled with cap 8 and device-0 15'."""
    name = spec["traces"][point.trace]["name"]
    told = " and ".join(f"{name} {value}" for (name, _), value in zip(spec["over"], point.values))
    return f"{name} with {told}" if told else name
