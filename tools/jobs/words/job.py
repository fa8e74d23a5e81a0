"""`wb job`: one job of a folder of jobs."""
from __future__ import annotations

from program.errors import Error, OtherWords
from program.statuses import Status

from .. import plan, worker

TYPE_CHECKING = False
if TYPE_CHECKING:
    import argparse


def add(command: argparse.ArgumentParser) -> None:
    """The folder, and which job."""
    command.add_argument("folder", metavar="FOLDER", help="a folder of jobs, which has a plan")
    command.add_argument("job", metavar="JOB", type=int, nargs="?", help="its number, from 1")
    command.add_argument("--show", action="store_true", help="print the rows, and make no file")
    command.add_argument("--check", action="store_true", help="only whether this machine has the program of the plan")


def run(given: argparse.Namespace) -> Status:
    """Does it."""
    if given.check:
        worker.here(plan.load(given.folder), given.folder)
        return Status.GOOD
    if given.job is None:
        raise OtherWords("which job is not said")
    try:
        (worker.show if given.show else worker.do)(given.folder, given.job)
    except Error as error:
        error.args = (f"job {given.job}: {error}",)
        raise
    return Status.GOOD
