"""What several parts take: a text of tracepoints, and the ticks a second of the kernel that printed it."""
from __future__ import annotations

import argparse

from ..whole import Story, story_of
from ..reading import SECONDS


def add_text(command: argparse.ArgumentParser, is_last: bool = False) -> None:
    """A part reads a text; where a word before it may have none of its own, that one may have taken it."""
    command.add_argument("text", metavar="TEXT", nargs="?" if is_last else None,
                         help="what trace or trace_pipe of tracefs, 'trace-cmd report' or 'perf script' "
                         "printed, '-' for standard input")
    command.add_argument("--hz", type=int, choices=SECONDS, help="ticks a second of the kernel (else as its spans say)")


def add_strict(command: argparse.ArgumentParser) -> None:
    """A part asks the law of strict disks for those that are."""
    command.add_argument("--strict", action="append", default=[], metavar="DISK",
                         help="this disk is strict: its lines are compared with the law of strict disks; may be given again")


def joined(given: argparse.Namespace) -> Story:
    """The story of the text, with its strict disks."""
    return story_of(given.text, given.hz, getattr(given, "strict", ()))
