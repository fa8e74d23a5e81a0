"""A command that is run while the processes below it are sampled."""
from __future__ import annotations

import json
import os
import resource
import signal
import subprocess
from collections.abc import Sequence
from types import FrameType
from typing import TextIO

from .sampling import EVERY, Sampler


class Stopped(Exception):
    """A signal that ends this program."""


def stop(number: int, frame: FrameType | None) -> None:
    """Ends the run, so that what was seen of it is written."""
    raise Stopped(number)


def run_sampled(command: Sequence[str], folder: str, log: TextIO, printed: TextIO) -> int:
    """Runs it in a folder, and returns its status, or 1 where a signal ended this program. The log has a line of each process, and last the
    processor time of all where the command ended by itself."""
    for number in (signal.SIGTERM, signal.SIGHUP):
        signal.signal(number, stop)
    before = children_seconds()
    with subprocess.Popen(command, cwd=folder, stdin=subprocess.DEVNULL, stdout=printed, stderr=subprocess.STDOUT, start_new_session=True) as started:
        log.write(json.dumps({"root": started.pid}) + "\n")
        sampler = Sampler(started.pid, log)
        try:
            while True:
                sampler.sample()
                try:
                    status = started.wait(EVERY)
                    break
                except subprocess.TimeoutExpired:
                    pass
        except (Stopped, KeyboardInterrupt):
            sampler.write_all()
            os.killpg(started.pid, signal.SIGTERM)
            return 1
        sampler.end(children_seconds() - before)
    return status if status >= 0 else 1


def children_seconds() -> float:
    """Processor seconds of all children that have ended, and theirs."""
    used = resource.getrusage(resource.RUSAGE_CHILDREN)
    return used.ru_utime + used.ru_stime
