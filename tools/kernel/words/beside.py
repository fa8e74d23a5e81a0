"""`wb kernel beside`: what a kernel did, beside what a replay of a trace like its machine did."""
from __future__ import annotations

import argparse
import sys

from forecasting.reader import ForecastReader
from journals import picture
from journals.reader import Reader
from journals.source import Source
from journals.trace import Trace
from journals.trace_reader import read_trace
from program.errors import OtherWords
from program.output import Staging, held_text, publish
from program.statuses import Status

from ..beside import Span, farthest, of_kernel, of_replay, rows
from ..beside_forecast import of_forecast
from .texts import add_text, joined

FIT = 0.5
"""A replay's span is at least such a part of the text's, or numbers of both say little beside each other."""

FORMATS = ("png", "svg", "pdf")


def add(command: argparse.ArgumentParser) -> None:
    """A text, a trace and its journal, and whether there is a picture."""
    add_text(command)
    command.add_argument("trace", metavar="TRACE", help="of a machine like that of the text ('wb kernel trace')")
    command.add_argument("journal", metavar="JOURNAL", help="its journal: wbsim replay < TRACE")
    command.add_argument("--forecast", action="store_true", help="the JOURNAL is a forecast, wbsim forecast EVERY < TRACE: of minutes, too")
    command.add_argument("--seconds", type=float, metavar="S", help="only the first so many seconds of both")
    command.add_argument("--picture", metavar="DIRECTORY", help="draws both, too")
    command.add_argument("--name", default="beside", help="of the picture (beside)")
    command.add_argument("--force", action="store_true", help="write over a picture that lies there")
    command.add_argument("--format", choices=FORMATS, default="png", help="of the picture (png)")


def run(given: argparse.Namespace) -> Status:
    """Prints the table, and draws the picture where one is wanted."""
    if given.picture:
        picture.demand()
    story = joined(given)
    trace = read_trace(given.trace)
    kernel = of_kernel(story, given.seconds)
    replay = span_of(given, trace, kernel.seconds)
    spans = [kernel, replay]
    if not replay.levels:
        raise OtherWords("the forecast has no pause" if given.forecast else "the journal has no check that isn't free")
    if replay.seconds < FIT * kernel.seconds:
        print(f"wb: the {replay.name} spans less than half of the text: {replay.seconds:.1f} of {kernel.seconds:.1f} s", file=sys.stderr)
    with held_text() as text:
        print(f"{'':<32}{'kernel':>12}{replay.name:>12}{'quotient':>10}", file=text)
        for name, values, quotient in rows(spans):
            print(f"{name:<32}{''.join(f'{value:>12}' for value in values)}{quotient:>10}".rstrip(), file=text)
        pages, time = farthest(kernel.levels, replay.levels)
        print(f"the counts are farthest apart at {time:.1f} s: {pages:.0f} pages", file=text)
    if given.picture:
        from .. import beside_drawing

        with Staging(given.picture, given.force) as staging:
            path = staging.path(f"{given.name}.{given.format}")
            beside_drawing.compose(spans, given.name).savefig(path, dpi=beside_drawing.DOTS_AN_INCH, metadata=picture.undated(path))
            publish(staging)
    return Status.GOOD


def span_of(given: argparse.Namespace, trace: Trace, seconds: float) -> Span:
    """What the replay did, or the forecast, in at most so many seconds."""
    if not given.forecast:
        return of_replay(trace, Reader(given.journal, trace).events(), seconds)
    reader = ForecastReader(Source(given.journal), trace)
    return of_forecast(trace, reader, seconds)
