"""`wb forecast`: a run of any length by intervals, as tables and as a picture."""
from __future__ import annotations

import argparse
import json
import os
from collections.abc import Iterator
from contextlib import contextmanager

from jobs import options, origin
from journals import picture as pictures
from journals import ranges
from journals.source import Source
from journals.trace import Trace
from journals.trace_reader import trace_of
from journals.whole_text import WholeText, read_whole
from program.errors import OtherWords
from program.output import Staging, held_text, publish
from program.statuses import Status

from ..figures import Figures
from ..reader import ForecastReader
from ..running import forecast_by
from ..scene import ForecastScene
from ..tables import as_json, lines

EVERY = 200
"""Ticks of an interval unless it is said otherwise: the timer publishes limits as often."""

FORMATS = (".png", ".svg", ".pdf")


def add(command: argparse.ArgumentParser) -> None:
    """A trace, how long intervals are, and what is made of it."""
    command.add_argument("trace", metavar="TRACE", help="the trace that is run")
    command.add_argument("--every", type=int, metavar="TICKS", help=f"ticks of an interval, 1 to 10^9 ({EVERY})")
    command.add_argument("--out", metavar="PICTURE", help="draws it, too: a file that ends in .png, .svg or .pdf")
    command.add_argument("--force", action="store_true", help="write over a picture that lies there")
    command.add_argument("--json", action="store_true", help="the numbers for other programs, as JSON")
    command.add_argument("--text", metavar="FORECAST", help="what 'wbsim forecast' has written, '-' for standard input, in place of a run")
    options.add_program(command)
    command.add_argument("--replay-py", action="store_true", dest="python", help="the same")


def run(given: argparse.Namespace) -> Status:
    """Runs the program and prints the tables, and draws the picture where one is wanted."""
    demand(given)
    text = read_whole(given.trace)
    trace = trace_of(text)
    figures, scene = Figures(trace), ForecastScene(trace)
    with opened(given, text, trace) as reader:
        for rows in reader.intervals():
            scene.every = reader.every
            figures.take(rows)
            scene.take(rows)
    with held_text() as said:
        for line in [json.dumps(as_json(figures, reader), indent=1)] if given.json else lines(figures, reader):
            print(line, file=said)
    if given.out:
        draw(given, scene, figures)
    return Status.GOOD


def demand(given: argparse.Namespace) -> None:
    """Raises an error where the words don't go together, or there is nothing to draw with."""
    if given.text and (given.every is not None or given.binary or given.python):
        raise OtherWords("--text takes a forecast that was made: neither --every nor a program goes with it")
    if given.every is not None and not ranges.EVERY.least <= given.every <= ranges.EVERY.greatest:
        raise OtherWords(f"--every {given.every}: {ranges.EVERY.fault(given.every)}")
    if given.out:
        if not given.out.endswith(FORMATS):
            raise OtherWords(f"--out {given.out}: it ends in {', '.join(FORMATS)}")
        pictures.demand(": without --out there are tables alone")


@contextmanager
def opened(given: argparse.Namespace, text: WholeText, trace: Trace) -> Iterator[ForecastReader]:
    """The forecast: of a file, or of a program that makes it meanwhile."""
    if given.text:
        yield ForecastReader(Source(given.text), trace)
        return
    words = origin.found(options.program(given)["choice"]).words
    with forecast_by(words, text.path, text.data, trace, EVERY if given.every is None else given.every) as reader:
        yield reader


def draw(given: argparse.Namespace, scene: ForecastScene, figures: Figures) -> None:
    """Draws the picture, and prints its path."""
    from .. import picture

    if not scene.intervals:
        raise OtherWords("no step is made: there is nothing to draw")
    directory, name = os.path.split(given.out)
    with Staging(directory or ".", given.force) as staging:
        picture.draw(scene, figures, os.path.splitext(os.path.basename(given.trace))[0], staging.path(name))
        publish(staging)
