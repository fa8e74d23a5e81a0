"""`wb plot`: a picture of each domain."""
from __future__ import annotations

import argparse
import os

from program.errors import OtherWords
from program.output import Staging, publish
from program.statuses import Status

from .. import picture
from ..scene import Scene
from .texts import add_directory, add_texts, opened


def add(command: argparse.ArgumentParser) -> None:
    """Both texts, where the pictures go, and how they are."""
    add_texts(command)
    add_directory(command)
    command.add_argument("--over", choices=("time", "steps"), default="time", help="what runs from left to right (time)")
    command.add_argument("--name", help="begins the names of the pictures, as NAME-domain-0.png (the journal's name)")
    command.add_argument("--format", choices=("png", "svg", "pdf"), default="png", help="of the pictures (png)")


def run(given: argparse.Namespace) -> Status:
    """Draws the pictures, and prints their paths."""
    picture.demand()
    trace, reader = opened(given)
    scene = Scene(trace, given.over == "steps")
    name = given.name or name_of(given)
    with Staging(given.directory, given.force) as staging:
        paths = [staging.path(f"{name}-domain-{domain}.{given.format}") for domain in range(trace.domains)]
        for event in reader.events():
            scene.take(event)
        refuse_empty(scene)
        for domain, path in enumerate(paths):
            picture.draw(scene, domain, name, path)
        publish(staging)
    return Status.GOOD


def name_of(given: argparse.Namespace) -> str:
    """The name of the journal's file without its ending; of the trace's, where the journal comes from standard input."""
    path = given.trace if given.journal == "-" else given.journal
    return os.path.splitext(os.path.basename(path))[0]


def refuse_empty(scene: Scene) -> None:
    """Raises `OtherWords` where the axis would have no length."""
    if scene.is_over_steps and not scene.steps:
        raise OtherWords("--over steps: the journal has no steps")
    if scene.last == scene.first:
        raise OtherWords(f"the whole journal is at time {scene.first}: there is nothing to draw over time")
