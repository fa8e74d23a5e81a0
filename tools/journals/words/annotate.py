"""`wb annotate`: each line of a journal with a sentence, and with `--why` the numbers behind each check."""
from __future__ import annotations

import argparse

from program.errors import OtherWords
from program.output import held_text
from program.statuses import Status

from ..reader import Reader
from ..reasons import Rates, Reasons, rates_of
from ..sentences import Sentences
from .texts import add_texts, opened

COLUMN = 40
"""Where the sentences begin, if the line leaves room."""


def add(command: argparse.ArgumentParser) -> None:
    """The two texts, and whether checks are explained."""
    add_texts(command)
    command.add_argument("--why", action="store_true", help="the numbers behind each check, one line each; the journal is a file then")


def run(given: argparse.Namespace) -> Status:
    """Prints each line with its sentence."""
    if given.why and given.journal == "-":
        raise OtherWords("--why reads the journal twice: it can't be standard input")
    trace, reader = opened(given)
    rates: Rates = rates_of(Reader(given.journal, trace).events()) if given.why else {}
    sentences, reasons = Sentences(trace), Reasons(trace, rates)
    with held_text() as text:
        for event in reader.events():
            text.write(f"{reader.text:<{COLUMN}}  {sentences.of(event)}\n")
            for line in reasons.of(event) if given.why else ():
                text.write(f"    {line}\n")
    return Status.GOOD
