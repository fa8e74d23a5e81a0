"""`wb summary`: tables by task, by device and by domain."""
from __future__ import annotations

import argparse
import json

from program.output import held_text
from program.statuses import Status

from ..summary import Summary
from ..summary_json import summary_json
from ..summary_text import lines
from .texts import add_texts, opened


def add(command: argparse.ArgumentParser) -> None:
    """The two texts, and how the summary is printed."""
    add_texts(command)
    command.add_argument("--json", action="store_true", help="the numbers for other programs, as JSON")


def run(given: argparse.Namespace) -> Status:
    """Prints the summary."""
    trace, reader = opened(given)
    summary = Summary(trace)
    for event in reader.events():
        summary.take(event)
    with held_text() as text:
        for line in [json.dumps(summary_json(summary), indent=1)] if given.json else lines(summary):
            print(line, file=text)
    return Status.GOOD
