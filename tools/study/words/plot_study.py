"""`wb plot-study`: pictures of the table of a study."""
from __future__ import annotations

import argparse
import os
from typing import Any

from journals import picture
from journals.words.texts import add_directory
from program.errors import OtherWords
from program.output import Staging, publish
from program.statuses import Status

from ..spread import at
from ..table import Table, read_table

SHOWN_OVER_ONE = "pauses,paused_ticks,pages_a_second,greatest_count,least_distance"
SHOWN_OVER_TWO = "paused_ticks,pages_a_second,least_distance"


def add(command: argparse.ArgumentParser) -> None:
    """A table, where the pictures go, and what they show."""
    command.add_argument("table", metavar="TABLE", help="the runs.csv of a study")
    add_directory(command)
    command.add_argument("--show", metavar="COLUMN,..", help=f"columns ({SHOWN_OVER_ONE}; over two variables {SHOWN_OVER_TWO})")
    command.add_argument("--at", action="append", default=[], metavar="VARIABLE=VALUE",
                         help="only these runs; the rest has one variable or two")
    command.add_argument("--name", help="begins the names of the pictures (that of the table)")
    command.add_argument("--format", choices=("png", "svg", "pdf"), default="png", help="of the pictures (png)")


def run(given: argparse.Namespace) -> Status:
    """Draws a picture over one variable, or one for each trace over two, and prints the paths."""
    picture.demand()
    table = at(read_table(given.table), fixed_of(given.at))
    if len(table.variables) not in (1, 2):
        raise OtherWords(f"the variables are {', '.join(table.variables) or 'none'}: --at leaves one or two of them")
    from .. import drawing

    name = given.name or os.path.splitext(os.path.basename(given.table))[0]
    columns = (given.show or (SHOWN_OVER_ONE if len(table.variables) == 1 else SHOWN_OVER_TWO)).split(",")
    with Staging(given.directory, given.force) as staging:
        for ending, figure in figures(drawing, table, columns):
            figure.savefig(staging.path(f"{name}{ending}.{given.format}"), dpi=drawing.DOTS_AN_INCH)
        publish(staging)
    return Status.GOOD


def figures(drawing: Any, table: Table, columns: list[str]) -> list[tuple[str, Any]]:
    """The figures, each with what its name has at the end."""
    over = " and ".join(table.variables)
    if len(table.variables) == 1:
        return [("", drawing.lines(table, columns, f"{', '.join(table.traces())} over {over}"))]
    traces = table.traces()
    return [(f"-{trace}" if len(traces) > 1 else "", drawing.maps(table, trace, columns, f"{trace} over {over}"))
            for trace in traces]


def fixed_of(words: list[str]) -> dict[str, int]:
    """The values that are given for variables."""
    fixed = {}
    for word in words:
        name, is_given, value = word.partition("=")
        if not is_given or not value.isdecimal():
            raise OtherWords(f"'{word}' is not VARIABLE=VALUE")
        fixed[name.replace("-", "_")] = int(value)
    return fixed
