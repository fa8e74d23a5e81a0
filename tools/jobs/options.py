"""What each word that makes jobs takes, and what it does with them."""
from __future__ import annotations

import argparse
import os
import shutil
import sys
from collections.abc import Mapping

from program.errors import Error, OtherWords
from program.output import held_text, writing
from program.statuses import Status

from . import engine, files, listing, origin, plan
from .kinds import Row

MOST_RUNS_A_JOB, JOBS_A_SLOT = 250, 4
"""Unless it is said otherwise a job has at most so many runs, and each slot about so many jobs."""

MOST_NAMED = 20
"""Jobs that failed of which it is told why."""


class JobsFailed(Error):
    """Some jobs have failed each time that they were tried."""

    status = Status.JOBS_FAILED


def add(command: argparse.ArgumentParser) -> None:
    """How jobs are done."""
    group = command.add_argument_group("jobs")
    group.add_argument("--jobs", type=int, metavar="N", help="jobs side by side, on each host (as many as processors)")
    group.add_argument("--hosts", metavar="FILE", help="a line for each machine, as in GNU parallel's --sshloginfile; ':' is this one")
    group.add_argument("--there", metavar="DIR", default=origin.ROOT, help="where this repository lies on the hosts (as here)")
    group.add_argument("--retries", type=int, default=3, metavar="N", help="how often a job is tried (3)")
    group.add_argument("--runs-a-job", type=int, metavar="N", help=f"(so that each slot has {JOBS_A_SLOT} jobs, at most {MOST_RUNS_A_JOB})")
    group.add_argument("--any-program", action="store_true", help="also where a machine's program is another; each row says which")
    group.add_argument("--resume", action="store_true", help="go on where it was stopped; a job that failed is tried again")
    group.add_argument("--print-jobs", action="store_true", help="do nothing but print the jobs, a command a line; then --resume")
    group.add_argument("--print-makefile", action="store_true", help="likewise, as rules for make")


def add_program(command: argparse.ArgumentParser) -> None:
    """What makes a run."""
    command.add_argument("--binary", metavar="FILE", help="the program (the proved one, where it is built, else what ./wbsim compiles)")
    command.add_argument("--python", action="store_true", help="tools/replay.py in its place")


def program(given: argparse.Namespace) -> dict[str, str]:
    """The program that was chosen, as it is on this machine."""
    if given.binary and given.python:
        raise OtherWords("--binary and --python name two programs")
    return program_of(origin.PYTHON if given.python else os.path.abspath(given.binary) if given.binary else origin.BUILT)


def program_of(choice: str) -> dict[str, str]:
    """The program of a choice, as it is on this machine."""
    if choice == origin.BUILT:
        origin.build()
    found = origin.found(choice)
    return {"choice": choice, "version": found.version, "sum": found.sum}


def is_listing(given: argparse.Namespace) -> bool:
    """Whether the jobs are only printed."""
    return given.print_jobs or given.print_makefile


def runs_a_job(given: argparse.Namespace, runs: int) -> int:
    """How many runs a job has."""
    for name in ("jobs", "retries", "runs_a_job"):
        if (value := getattr(given, name)) is not None and value < 1:
            raise OtherWords(f"--{name.replace('_', '-')} is at least 1")
    slots = (given.jobs or len(os.sched_getaffinity(0))) * (len(engine.hosts.read_hosts(given.hosts)) if given.hosts else 1)
    return given.runs_a_job or max(1, min(MOST_RUNS_A_JOB, -(-runs // (JOBS_A_SLOT * slots))))


def made(given: argparse.Namespace, planned: plan.Plan, folder: str, inputs: Mapping[str, bytes]) -> list[Row] | None:
    """The rows of all runs, in their order; nothing where the jobs are only printed. Raises `JobsFailed`, after each was named."""
    folder = os.path.abspath(folder)
    planned = begun(given, planned, folder, inputs)
    if is_listing(given):
        with held_text() as text:
            print(*(listing.rules if given.print_makefile else listing.lines)(folder, planned), sep="\n", file=text)
        return None
    if found := origin.FOUND.get(planned.program.get("choice", "")):
        origin.write_note(folder, planned.program["choice"], found)
    how = engine.How(given.jobs, given.hosts, os.path.abspath(given.there), given.retries)
    failed = engine.carry_out(folder, planned, how)
    for reason in failed[:MOST_NAMED]:
        print(f"wb: {reason}", file=sys.stderr)
    if failed[MOST_NAMED:]:
        print(f"wb: and {len(failed) - MOST_NAMED} jobs more", file=sys.stderr)
    if failed:
        raise JobsFailed(f"{len(failed)} of {planned.jobs} jobs have failed; {folder} keeps what was made, and --resume tries them again")
    return gathered(folder, planned)


def begun(given: argparse.Namespace, planned: plan.Plan, folder: str, inputs: Mapping[str, bytes]) -> plan.Plan:
    """The folder with its plan: a new one, or the one that it has."""
    if given.resume:
        had = plan.load(folder)
        if (had.kind, had.spec, had.runs) != (planned.kind, planned.spec, planned.runs):
            raise OtherWords(f"{folder} has the jobs of something else: --resume goes on with the same")
        return had
    if plan.is_there(folder):
        if not getattr(given, "force", False):
            raise OtherWords(f"{folder} has jobs already (--resume goes on with them)")
        shutil.rmtree(folder)
    with writing(folder):
        os.makedirs(os.path.join(folder, files.DONE), exist_ok=True)
        for name, data in inputs.items():
            os.makedirs(os.path.dirname(os.path.join(folder, name)), exist_ok=True)
            with open(os.path.join(folder, name), "wb") as file:
                file.write(data)
        with open(os.path.join(folder, listing.LIST), "w", encoding="utf-8") as file:
            file.writelines(line + "\n" for line in listing.lines(folder, planned))
    planned.save(folder)
    return planned


def gathered(folder: str, planned: plan.Plan) -> list[Row]:
    """The rows of all jobs. Each run has one."""
    rows: list[Row] = []
    for job in range(1, planned.jobs + 1):
        path = files.done_path(folder, job)
        had = files.rows_of(files.read(path), planned.runs_of(job))
        if len(had) < len(planned.runs_of(job)):
            raise OtherWords(f"{path} isn't whole: --resume makes it again where it is removed")
        rows += [had[run] for run in planned.runs_of(job)]
    return rows
