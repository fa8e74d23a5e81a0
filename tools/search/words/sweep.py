"""`wb sweep`: one parameter of a trace over values, a replay for each."""
from __future__ import annotations

import argparse
import csv
import os
import shutil
import sys

from jobs import options
from jobs.kinds import Row
from journals import picture
from journals.whole_text import read_whole
from journals.words.texts import add_directory
from program.output import Staging, publish
from program.statuses import Status
from study.making import FORECAST, TOLD_BY
from study.reading import Study, StudyTrace
from study.words.study import JOBS, plan_of

from ..editing import NAMES, Parameter, parameter
from ..running import COLUMNS, EVERY, of_row, row
from ..values import values_of

ORIGIN = ("host", "version", "sum")


def add(command: argparse.ArgumentParser) -> None:
    """A trace, a parameter and its values, and what runs them."""
    command.add_argument("trace", metavar="TRACE", help="the trace that is changed")
    add_directory(command)
    command.add_argument("--over", required=True, metavar="PARAMETER", help=NAMES)
    command.add_argument("--values", required=True, metavar="V,..", help="numbers, or FIRST..LAST..STEP, with commas")
    command.add_argument("--no-picture", action="store_true", help="only the table")
    options.add_program(command)
    options.add(command)


def run(given: argparse.Namespace) -> Status:
    """Runs them, and writes the table and the picture."""
    if not given.no_picture:
        picture.demand(": --no-picture makes the table")
    of, values = parameter(given.over), values_of(given.values.split(","))
    text = read_whole(given.trace)
    study = Study([StudyTrace(text.path, text.data)], {of.name: values}, goes_on=True)
    jobs = os.path.join(given.directory, JOBS)
    rows = options.made(given, plan_of(given, study), jobs, study.inputs())
    if rows is not None:
        title = os.path.splitext(os.path.basename(text.path))[0]
        write(given, title, of, values, rows)
        shutil.rmtree(jobs)
    return Status.GOOD


def write(given: argparse.Namespace, title: str, of: Parameter, values: list[int], rows: list[Row]) -> None:
    """The table, a line for each value, and the picture."""
    runs = [of_row(it) for it in rows]
    longer = [value for value, made in zip(values, rows) if made.get(TOLD_BY) == FORECAST]
    if longer:
        print(f"wb: with {of.name} {', '.join(map(str, longer))} a run has more steps than a replay may make: a forecast by intervals of {EVERY} "
              "ticks tells it, which doesn't tell waits", file=sys.stderr)
    with Staging(given.directory, given.force) as staging:
        with open(staging.path("sweep.csv"), "w", encoding="ascii", newline="") as file:
            table = csv.writer(file, lineterminator="\n")
            table.writerow([of.name.replace("-", "_"), *COLUMNS, TOLD_BY.replace(" ", "_"), *ORIGIN])
            table.writerows([value, *row(it), made.get(TOLD_BY, ""), *(made[name] for name in ORIGIN)] for value, it, made in zip(values, runs, rows))
        if not given.no_picture:
            from .. import drawing

            drawing.compose(title, of, values, runs, len(longer)).savefig(staging.path("sweep.png"), dpi=drawing.DOTS_AN_INCH)
        publish(staging)
