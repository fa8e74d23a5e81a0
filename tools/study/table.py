"""The rows of a study as a table, and the table read again."""
from __future__ import annotations

import csv
from collections.abc import Iterator
from dataclasses import dataclass
from typing import Any

from jobs.kinds import Row
from program.errors import OtherWords, ReadFault
from search.running import COLUMNS, of_row, row

from .grid import point_of

BEFORE, BETWEEN = ("run", "trace"), "repeat"
AFTER = ("seconds", "host", "version", "sum")


def head(spec: dict[str, Any]) -> list[str]:
    """The columns: which run it is, what it came to, and where it was made by what."""
    return [*BEFORE, *(name.replace("-", "_") for name, _ in spec["over"]), BETWEEN, *COLUMNS, *AFTER]


def lines(spec: dict[str, Any], rows: list[Row]) -> Iterator[list[str]]:
    """The lines, one for each run."""
    for it in rows:
        point = point_of(spec, it["run"])
        name = spec["traces"][point.trace]["name"]
        yield [str(it["run"]), name, *map(str, point.values), str(point.repeat), *row(of_row(it)), *(str(it[name]) for name in AFTER)]


@dataclass(frozen=True)
class Table:
    """A table that was read: the names of its variables, and its lines by their columns."""

    variables: list[str]
    lines: list[dict[str, str]]

    def traces(self) -> list[str]:
        """The traces, in the order of the table."""
        return list(dict.fromkeys(line["trace"] for line in self.lines))

    def values(self, variable: str) -> list[int]:
        """The values of a variable, each once, in their order."""
        return sorted({int(line[variable]) for line in self.lines})


def read_table(path: str) -> Table:
    """The table of a file."""
    try:
        with open(path, encoding="utf-8", newline="") as file:
            reader = csv.DictReader(file)
            names, found = list(reader.fieldnames or []), list(reader)
    except OSError as error:
        raise ReadFault(f"{path}: {error.strerror or error}") from error
    if tuple(names[:2]) != BEFORE or BETWEEN not in names or not found:
        raise OtherWords(f"{path} is no table of a study: its columns begin with {', '.join(BEFORE)}, and it has a line")
    return Table(names[2 : names.index(BETWEEN)], found)
