"""`wb csv`: the entries of a journal as tables."""
from __future__ import annotations

import argparse

from program.output import Staging, publish
from program.statuses import Status

from ..tables import Tables
from .texts import add_directory, add_texts, opened


def add(command: argparse.ArgumentParser) -> None:
    """Both texts, and where the tables go."""
    add_texts(command)
    add_directory(command)


def run(given: argparse.Namespace) -> Status:
    """Writes the tables, and prints their paths."""
    trace, reader = opened(given)
    with Staging(given.directory, given.force) as staging:
        with Tables(trace, staging) as tables:
            for event in reader.events():
                tables.take(event)
        publish(staging)
    return Status.GOOD
