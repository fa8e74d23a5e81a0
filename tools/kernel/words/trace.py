"""`wb kernel trace`: a trace of a machine like the one that printed a text."""
from __future__ import annotations

import argparse
import sys

from journals import trace_limits
from program.errors import OtherWords
from program.output import held_text
from program.statuses import Status

from ..machine import CHUNK, machine_of
from ..machine_lines import trace_lines
from .texts import add_text, joined


def add(command: argparse.ArgumentParser) -> None:
    """A text, and how much of it."""
    add_text(command)
    command.add_argument("--seconds", type=float, metavar="S", help="only its first so many seconds")
    command.add_argument("--forecast", action="store_true", help="with as many pages as a trace may have, not only as a replay has steps for")
    command.add_argument("--chunk", type=int, default=CHUNK, metavar="N", help=f"the pages with which a scan ends ({CHUNK})")


def run(given: argparse.Namespace) -> Status:
    """Prints the trace, and on standard error what it stands for."""
    if not trace_limits.CHUNK.least <= given.chunk <= trace_limits.CHUNK.greatest:
        raise OtherWords(f"--chunk {given.chunk}: {trace_limits.CHUNK.fault(given.chunk)}")
    machine = machine_of(joined(given), given.seconds, given.chunk, given.forecast)
    with held_text() as text:
        for line in trace_lines(machine):
            print(line, file=text)
    for note in machine.notes:
        print(f"wb: {note}", file=sys.stderr)
    return Status.GOOD
