"""`wb kernel plot`: a picture of each disk, kernel and laws in two colours."""
from __future__ import annotations

import argparse
import math
import os

from journals import picture
from journals.words.texts import add_directory
from program.errors import OtherWords
from program.output import Staging, publish
from program.statuses import Status

from .. import comparing
from .texts import add_strict, add_text, joined


def add(command: argparse.ArgumentParser) -> None:
    """A text, where the pictures go, and which seconds of it."""
    add_text(command)
    add_directory(command)
    add_strict(command)
    command.add_argument("--from", dest="begin", type=float, default=0.0, metavar="S", help="only from this second on")
    command.add_argument("--to", dest="end", type=float, default=math.inf, metavar="S", help="only up to this second")
    command.add_argument("--name", help="begins the names of the pictures, as NAME-disk-7-0.png (the text's name)")
    command.add_argument("--format", choices=("png", "svg", "pdf"), default="png", help="of the pictures (png)")


def run(given: argparse.Namespace) -> Status:
    """Draws the pictures, and prints their paths."""
    from .. import drawing

    picture.demand()
    story = joined(given)
    found = {(it.line, it.kind): it for it in comparing.numbers(story)}
    first = story.checks[0].check.time
    if not any(given.begin <= it.check.time - first <= given.end for it in story.checks):
        raise OtherWords("no check of the text is in these seconds")
    title = given.name or os.path.splitext(os.path.basename(story.text.path))[0]
    with Staging(given.directory, given.force) as staging:
        for disk in story.text.disks:
            figure = drawing.compose(story, disk, found, title, given.begin, given.end)
            path = staging.path(f"{title}-disk-{disk.replace(':', '-').replace(' ', '-')}.{given.format}")
            figure.savefig(path, dpi=drawing.DOTS_AN_INCH, metadata=picture.undated(path))
        publish(staging)
    return Status.GOOD
