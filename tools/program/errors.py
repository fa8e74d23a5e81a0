"""What ends the program otherwise than well. Each error has its status, and is one sentence on standard error."""
from __future__ import annotations

import sys
from enum import Enum

from . import interpreters
from .statuses import Status


class Error(Exception):
    """Ends the program with its status."""

    status = Status.REFUSED


class Cause(Enum):
    """The name of a fault of a text. All but the last two are those of `wbsim` itself."""

    BAD_LINE = "bad line"
    UNKNOWN_NAME = "unknown name"
    GIVEN_TWICE = "given twice"
    OUT_OF_RANGE = "out of range"
    TOO_MANY = "too many"
    MISSING = "missing"
    TOO_LONG = "input too long"
    OUT_OF_PLACE = "out of place"
    ENDS_EARLY = "ends early"


class Fault(Error):
    """A text is none of its kind: the file, the line and the column from 1, the cause, and what was found.

    The line is 0 where no single one is at fault, and the column where the whole line is. Where something is missing, `thing` is
    its word.
    """

    def __init__(self, path: str, line: int, cause: Cause, found: str, column: int = 0, thing: str = "") -> None:
        place = f"line {line}, column {column}: " if line and column else f"line {line}: " if line else ""
        self.verdict = (f"line {line}: " if line else "") + f"{cause.value} {thing}".rstrip()
        super().__init__(f"{path}: {place}{cause.value}{' ' * bool(thing)}{thing}: {found}")
        self.path = path
        self.line = line
        self.column = column
        self.cause = cause


class OtherWords(Error):
    """What was given doesn't go together."""

    status = Status.OTHER_WORDS


class ReadFault(Error):
    """A file could not be read."""

    status = Status.READ_FAULT

    def __init__(self, what: str) -> None:
        super().__init__(f"read fault: {what}")


class WriteFault(Error):
    """The output could not be written."""

    status = Status.WRITE_FAULT

    def __init__(self, what: str) -> None:
        super().__init__(f"write fault: {what}")


class NotThere(Error):
    """What the word needs isn't on this machine."""

    status = Status.NOT_THERE


class NoMatplotlib(NotThere):
    """A picture is wanted, and this Python has no matplotlib. `main` goes on with another Python that has it."""

    def __init__(self, otherwise: str = "") -> None:
        pythons = dict.fromkeys((sys.executable, interpreters.SYSTEM))
        super().__init__(f"there is no matplotlib for {' or '.join(pythons)} (Debian: apt-get update, and then "
                         f"apt-get install --no-install-recommends python3-matplotlib){otherwise}")
