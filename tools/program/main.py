"""Does what the word says, and answers how that ended."""
from __future__ import annotations

import io
import os
import sys

from . import interpreters
from .errors import Error, NoMatplotlib, WriteFault
from .statuses import Status

TYPE_CHECKING = False
if TYPE_CHECKING:
    from argparse import Namespace


def main(arguments: list[str] | None = None) -> int:
    """The status of a run with these words, else with those of the command line."""
    replace_unknown_characters()
    given = given_of(sys.argv[1:] if arguments is None else arguments)
    try:
        return given.run(given)
    except NoMatplotlib as error:
        if arguments is None:
            interpreters.go_on_with("matplotlib")
        return say(error)
    except Error as error:
        return say(error)
    except BrokenPipeError:
        # Who reads has gone. Python would complain when it closes standard output.
        os.dup2(os.open(os.devnull, os.O_WRONLY), sys.stdout.fileno())
        return Status.WRITE_FAULT
    except OSError as error:
        return say(WriteFault(str(error)))
    except KeyboardInterrupt:
        return Status.INTERRUPTED


def given_of(arguments: list[str]) -> Namespace | Job:
    """What was given. The word of a job, as lists have it, needs no parser, whose start takes longer than a short run."""
    if len(arguments) in (3, 4) and arguments[0] == "job" and arguments[2].isdecimal() and arguments[3:] in ([], ["--show"]):
        return Job(arguments[1], int(arguments[2]), bool(arguments[3:]))
    from .parsers import parse

    return parse(arguments)


class Job:
    """A job that was given: its folder, its number, and whether its rows are printed."""

    check = False

    def __init__(self, folder: str, job: int, show: bool) -> None:
        self.folder, self.job, self.show = folder, job, show

    @staticmethod
    def run(given: Job) -> Status:
        """Does it."""
        from jobs.words import job

        return job.run(given)


def replace_unknown_characters() -> None:
    """A character that the output cannot have is a question mark there."""
    for stream in (sys.stdout, sys.stderr):
        if isinstance(stream, io.TextIOWrapper):
            stream.reconfigure(errors="replace")


def say(error: Error) -> Status:
    """One sentence on standard error, and the status."""
    print(f"wb: {error}", file=sys.stderr)
    return error.status
