"""The two texts that several words read: a trace, and its journal."""
from __future__ import annotations

import argparse

TYPE_CHECKING = False
if TYPE_CHECKING:
    from ..reader import Reader
    from ..trace import Trace


def add_texts(command: argparse.ArgumentParser) -> None:
    """A word takes both."""
    command.add_argument("trace", metavar="TRACE", help="the trace that was run")
    command.add_argument("journal", metavar="JOURNAL", help="its journal, '-' for standard input")


def add_directory(command: argparse.ArgumentParser) -> None:
    """A word makes files."""
    command.add_argument("directory", metavar="DIRECTORY", help="where the files go; made where it isn't there")
    command.add_argument("--force", action="store_true", help="write over files that lie there")


def opened(given: argparse.Namespace) -> tuple[Trace, Reader]:
    """The trace, and the journal that is to be read."""
    from ..reader import Reader
    from ..trace_reader import read_trace

    trace = read_trace(given.trace)
    return trace, Reader(given.journal, trace)
