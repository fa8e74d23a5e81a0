"""`wb nearest`: the interleaving of a trace that comes nearest to a domain's bound."""
from __future__ import annotations

import argparse
import sys
import tempfile

from jobs import options
from jobs.kinds import Row
from jobs.origin import PYTHON
from jobs.plan import Plan
from journals.trace_reader import trace_of
from journals.whole_text import read_whole
from program.errors import OtherWords
from program.output import held_text
from program.statuses import Status

from ..climbing import Climb, Score, shorten, start, without_orders

MOST_PAGES = 4096
"""Pages of a trace that is small enough to be run many times."""

TRACE = "traces/0.trace"


def add(command: argparse.ArgumentParser) -> None:
    """A trace, and how long and from where is searched."""
    command.add_argument("trace", metavar="TRACE", help="a small machine; its order lines are one of the starts")
    command.add_argument("--minutes", type=float, default=1.0, help="how much processor time is searched for, in all (1)")
    command.add_argument("--seeds", type=int, default=4, metavar="N", help="the time is shared among so many beginnings, each a run (4)")
    command.add_argument("--domain", type=int, default=0, help="whose bound: 0 is the global one's, else a cgroup's (0)")
    command.add_argument("--work", metavar="DIR", help="where the jobs lie, for --resume and --print-jobs (a folder that goes)")
    options.add(command)


def run(given: argparse.Namespace) -> Status:
    """Prints the best trace, and on standard error how near it comes."""
    if not given.work and (given.resume or options.is_listing(given)):
        raise OtherWords("--work says where the jobs lie")
    if given.work:
        return search(given, given.work)
    with tempfile.TemporaryDirectory() as folder:
        return search(given, folder)


def search(given: argparse.Namespace, folder: str) -> Status:
    """Searches from each seed, and shortens the best that was found."""
    whole = read_whole(given.trace)
    trace, text = trace_of(whole), whole.data.decode("latin-1")
    if trace.pages > MOST_PAGES:
        raise OtherWords(f"{trace.pages} pages: a trace of at most {MOST_PAGES} is run often enough")
    if not 0 <= given.domain < trace.domains:
        raise OtherWords(f"the trace has no domain {given.domain}")
    if given.minutes <= 0 or given.seeds < 1:
        raise OtherWords("--minutes is above 0, and --seeds at least 1")
    climb = start(text, trace.cpus, given.domain)
    if not options.is_listing(given):
        own = start(without_orders(text), trace.cpus, given.domain)
        say(f"in the order of the rotation: {own.score.distance:.0f} pages below the bound")
        if climb.orders:
            say(f"by its own order lines: {climb.score.distance:.0f} pages below the bound")
    given.runs_a_job = given.runs_a_job or 1
    spec = {"trace": TRACE, "cpus": trace.cpus, "domain": given.domain, "seconds": 60 * given.minutes / given.seeds}
    a_job = options.runs_a_job(given, given.seeds)
    planned = Plan("nearest", spec, given.seeds, a_job, options.program_of(PYTHON), given.any_program, [TRACE])
    rows = options.made(given, planned, folder, {TRACE: whole.data})
    if rows is not None:
        tell_best(climb, rows)
    return Status.GOOD


def tell_best(climb: Climb, rows: list[Row]) -> None:
    """Prints the best of all seeds, without the orders that it doesn't need."""
    for row in rows:
        say(f"seed {row['run']}: {row['distance']:.0f} pages below the bound after {row['tries']} runs")
        score = Score(row["distance"], row["step"])
        if score < climb.score:
            climb.score, climb.orders = score, [(who, many) for who, many in row["orders"]]
    shorten(climb)
    say(f"nearest: {climb.score.distance:.0f} pages below the bound, at step {climb.score.step}, with {len(climb.orders)} order lines")
    with held_text() as out:
        out.write(climb.trace())


def say(sentence: str) -> None:
    """A sentence on standard error."""
    print(f"wb: {sentence}", file=sys.stderr)
