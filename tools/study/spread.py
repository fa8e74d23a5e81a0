"""The median and the spread of a column over the repeats of each setting."""
from __future__ import annotations

from collections.abc import Sequence
from dataclasses import dataclass
from statistics import median

from program.errors import OtherWords

from .table import Table

Setting = tuple[int, ...]


@dataclass(frozen=True)
class Spread:
    """What repeats came to: the least, the median, the greatest."""

    least: float
    middle: float
    greatest: float

    @property
    def width(self) -> float:
        """From the least to the greatest."""
        return self.greatest - self.least


def spread_of(values: Sequence[float]) -> Spread:
    """The spread of at least one value."""
    return Spread(min(values), float(median(values)), max(values))


def spreads(table: Table, trace: str, column: str) -> dict[Setting, Spread]:
    """A column of a trace, by the values of the variables."""
    found: dict[Setting, list[float]] = {}
    for line in table.lines:
        if line["trace"] == trace:
            setting = tuple(int(line[variable]) for variable in table.variables)
            found.setdefault(setting, []).append(number(line, column))
    return {setting: spread_of(values) for setting, values in found.items()}


def number(line: dict[str, str], column: str) -> float:
    """A value of a line."""
    try:
        return float(line[column])
    except (KeyError, TypeError):
        raise OtherWords(f"the table has no column '{column}'") from None
    except ValueError:
        raise OtherWords(f"the column '{column}' has '{line[column]}', which is no number") from None


def at(table: Table, fixed: dict[str, int]) -> Table:
    """The lines in which some variables have these values, without these variables."""
    for name in fixed:
        if name not in table.variables:
            raise OtherWords(f"the table has no variable '{name}', but {', '.join(table.variables) or 'none'}")
    kept = [line for line in table.lines if all(int(line[name]) == value for name, value in fixed.items())]
    if not kept:
        raise OtherWords("no run has " + " and ".join(f"{name} {value}" for name, value in fixed.items()))
    return Table([name for name in table.variables if name not in fixed], kept)
