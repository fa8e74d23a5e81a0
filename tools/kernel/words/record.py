"""`wb kernel record`: takes a text of this machine, as root, while whatever runs there runs."""
from __future__ import annotations

import argparse
import os
import shlex
import subprocess
import sys

from program.errors import NotThere, OtherWords
from program.statuses import Status

from ..recording import Demo, Recording, Wish, missing, record

OF_DEMO = ("writers", "disk", "dirty", "background")


def add(command: argparse.ArgumentParser) -> None:
    """Where the text goes, and what is recorded."""
    command.usage = "wb kernel record [--seconds S] [--demo ..] [--dry-run] TEXT [-- COMMAND ..]"
    command.add_argument("output", metavar="TEXT", help="where the text goes; nothing may be there")
    command.add_argument("--seconds", type=positive, metavar="S", help="how long (until COMMAND ends, or an interrupt; a demonstration 12)")
    command.add_argument("--demo", action="store_true", help="writers and a slow loop device of its own; sets vm.dirty_bytes for the time")
    command.add_argument("--writers", type=positive, help="of a demonstration: how many (3)")
    command.add_argument("--disk", type=natural, metavar="MIB", help="of a demonstration: what the disk writes a second (60); 0: as it is")
    command.add_argument("--dirty", type=positive, metavar="MIB", help="of a demonstration: vm.dirty_bytes for the time (200)")
    command.add_argument("--background", type=positive, metavar="MIB", help="of a demonstration: vm.dirty_background_bytes (100)")
    command.add_argument("--dry-run", action="store_true", help="only says what it would do, and how it would put that back")


def natural(text: str) -> int:
    """A number that is at least 0."""
    return 0 if text == "0" else positive(text)


def positive(text: str) -> int:
    """A number that is at least 1."""
    number = int(text)
    if number < 1:
        raise argparse.ArgumentTypeError(f"{text} isn't at least 1")
    return number


def run(given: argparse.Namespace) -> Status:
    """Says each step before it is done."""
    wish = Wish(given.output, given.seconds, tuple(given.rest), demo_of(given))
    recording = Recording(wish)
    if given.dry_run:
        steps = recording.steps()
        for step in steps:
            print(step.says)
        print("and then, also after an interrupt:")
        for step in reversed(steps):
            print(step.back)
        return Status.GOOD
    if why := missing(wish):
        raise NotThere(why)
    if os.path.exists(wish.output):
        raise OtherWords(f"{wish.output} is there already")
    try:
        record(recording.steps(), lambda sentence: print(f"wb: {sentence}", file=sys.stderr))
    except subprocess.CalledProcessError as error:
        raise NotThere(f"{error.cmd[0]} failed: {error.stderr.strip()}") from error
    if recording.status:
        print(f"wb: {wish.command[0]} ended with status {recording.status}", file=sys.stderr)
    print(f"wb: why writers paused says: tools/wb kernel explain {shlex.quote(wish.output)}", file=sys.stderr)
    return Status.GOOD


def demo_of(given: argparse.Namespace) -> Demo | None:
    """The demonstration that is asked for."""
    told = {name: getattr(given, name) for name in OF_DEMO if getattr(given, name) is not None}
    if not given.demo:
        if told:
            raise OtherWords(f"--{next(iter(told))} is of a demonstration: --demo asks for that")
        return None
    if given.rest:
        raise OtherWords("a demonstration runs its own writers: --demo and a command don't go together")
    demo = Demo(**told)
    if demo.background >= demo.dirty:
        raise OtherWords("--background is to be below --dirty")
    return demo
