"""`wb study`: the runs of a study as jobs, and a table with a line for each."""
from __future__ import annotations

import argparse
import csv
import os
from collections.abc import Iterable
from typing import Any

from jobs import options
from jobs.kinds import Row
from jobs.plan import Plan
from journals.words.texts import add_directory
from program.errors import Error, OtherWords
from program.output import Staging, publish
from program.statuses import Status
from search.running import read

from ..grid import Point, changed, corners, name_of, settings
from ..making import unpacked
from ..reading import Study, read_study, runs_of
from ..table import head, lines

TABLE, JOBS = "runs.csv", "jobs"


def add(command: argparse.ArgumentParser) -> None:
    """A study, where its table goes, what runs it, and how."""
    command.add_argument("study", metavar="STUDY", help="a file of TOML: traces, parameters over values, repeats (docs/STUDIES.md)")
    add_directory(command)
    options.add_program(command)
    options.add(command)


def run(given: argparse.Namespace) -> Status:
    """Has the jobs done, and writes the table."""
    table = os.path.join(given.directory, TABLE)
    if os.path.lexists(table) and not given.force:
        raise OtherWords(f"{table} lies there already (--force writes over it)")
    study = read_study(given.study)
    if given.python and study.command == "run":
        raise OtherWords("tools/replay.py makes no runs over threads")
    planned = plan_of(given, study)
    rows = options.made(given, planned, os.path.join(given.directory, JOBS), study.inputs())
    if rows is not None:
        write(given, planned, rows)
    return Status.GOOD


def plan_of(given: argparse.Namespace, study: Study) -> Plan:
    """The plan of its jobs. A setting whose trace is refused stops all before any is run: the values of a parameter that a trace may have are
    all those between a least and a greatest one, so that the corners of the grid are read, and where one is refused all in their order."""
    spec, runs = study.spec(), runs_of(study)
    try:
        read_all(study, spec, corners(spec))
    except Error:
        read_all(study, spec, settings(spec, runs))
        raise
    return Plan("study", spec, runs, options.runs_a_job(given, runs), options.program(given), given.any_program, list(study.inputs()))


def read_all(study: Study, spec: dict[str, Any], points: Iterable[Point]) -> None:
    """Reads the traces of some settings. Raises `Fault` at the first that is none."""
    texts = [it.data.decode("latin-1") for it in study.traces]
    for point in points:
        read(name_of(spec, point), changed(spec, texts[point.trace], point.values))


def write(given: argparse.Namespace, planned: Plan, rows: list[Row]) -> None:
    """The table, and what is kept of each run."""
    with Staging(given.directory, given.force) as staging:
        with open(staging.path(TABLE), "w", encoding="ascii", newline="") as file:
            table = csv.writer(file, lineterminator="\n")
            table.writerow(head(planned.spec))
            table.writerows(lines(planned.spec, rows))
        for row in rows:
            for what in ("journal", "trace"):
                if f"kept {what}" in row:
                    with open(staging.path(f"run-{row['run']}.{what}"), "wb") as file:
                        file.write(unpacked(row[f"kept {what}"]))
        publish(staging)
