"""Does a job: its runs one after another, each a row. A job that was stopped goes on behind its last whole row."""
from __future__ import annotations

import os
import sys
import time

from program.errors import Error, NotThere, OtherWords
from program.output import writing

from . import files, origin, plan
from .kinds import maker

TYPE_CHECKING = False
if TYPE_CHECKING:
    from collections.abc import Callable, Iterable
    from typing import BinaryIO

    from .kinds import Maker, Row

MOST_TOLD = 5
"""Runs that fail of which a job says why."""


def do(folder: str, job: int) -> None:
    """Makes the file of a job, where it isn't there."""
    planned = wanted(folder, job)
    with files.part(folder, job) as part:
        if part is None:
            return
        part.seek(0)
        had = files.rows_of(part.read(), planned.runs_of(job))
        write_rows(planned, folder, job, had, part)
        with writing(files.done_path(folder, job)):
            os.replace(files.part_path(folder, job), files.done_path(folder, job))


def show(folder: str, job: int) -> None:
    """Prints what the file of a job has, and leaves none."""
    write_rows(wanted(folder, job), folder, job, {}, sys.stdout.buffer)


def wanted(folder: str, job: int) -> plan.Plan:
    """The plan of a folder that has such a job."""
    planned = plan.load(folder)
    if not 1 <= job <= planned.jobs:
        raise OtherWords(f"{folder} has the jobs 1 to {planned.jobs}")
    return planned


def here(planned: plan.Plan, folder: str) -> origin.Origin:
    """The program on this machine, which is to be the plan's."""
    program = planned.program
    found = origin.found_before(program["choice"], folder)
    if not planned.is_any_program and (found.version, found.sum) != (program["version"], program["sum"]):
        raise NotThere(f"{origin.host()} has another program: version {found.version}, sum {found.sum}; "
                       f"the plan's is version {program['version']}, sum {program['sum']}")
    return found


def write_rows(planned: plan.Plan, folder: str, job: int, had: Iterable[int], out: BinaryIO) -> None:
    """A line for each run that isn't there. Raises `NotThere` where a run has failed, after all others are made."""
    program = here(planned, folder)
    make = maker(planned.kind, planned.spec, folder, program.words)
    about = {"host": origin.host(), "version": program.version, "sum": program.sum}
    failed = each_run(make, [run for run in planned.runs_of(job) if run not in had], lambda row: put(out, {**row, **about}))
    if failed:
        raise NotThere(f"{len(failed)} of {len(planned.runs_of(job))} runs have failed: " + "; ".join(failed[:MOST_TOLD]))


def each_run(make: Maker, runs: Iterable[int], take: Callable[[Row], None]) -> list[str]:
    """Makes each run, and answers why those failed that did."""
    failed = []
    for run in runs:
        begin = time.monotonic()
        try:
            row = make(run)
        except Error as error:
            failed.append(f"run {run}: {error}")
        else:
            take({files.RUN: run, "seconds": round(time.monotonic() - begin, 4), **row})
    return failed


def put(out: BinaryIO, row: Row) -> None:
    """A row, in one write."""
    with writing("a row"):
        out.write(files.line_of(row))
        out.flush()
