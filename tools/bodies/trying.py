"""Has the edits of crates tried by `rt must-fail`, some crates at a time."""
from __future__ import annotations

import os
import signal
import subprocess
import threading
from collections.abc import Callable, Iterator, Sequence
from concurrent.futures import ThreadPoolExecutor, as_completed
from contextlib import contextmanager

from .standing import GATE, names_in
from .verdicts import Verdict, read_verdicts

SECONDS_TO_END = 20
"""A check that was asked to end is killed after these."""


class Trying:
    """Tries that run beside each other, each of one crate by one processor, in one clone."""

    def __init__(self, folder: str, room: str, jobs: int) -> None:
        self.folder, self.jobs = folder, jobs
        self.given = {**os.environ, "RT_JOBS": "1", "TMPDIR": room}
        self.running: list[subprocess.Popen[str]] = []
        self.stopped = False
        self.alone = threading.Lock()

    def all(self, crates: Sequence[str], told: Callable[[str, dict[str, Verdict]], None]) -> dict[str, dict[str, Verdict]]:
        """The verdicts on each crate's edits. Each crate is told as it ends."""
        found = {}
        with ThreadPoolExecutor(self.jobs) as pool, self.ending():
            tries = {pool.submit(self.one, crate): crate for crate in crates}
            for done in as_completed(tries):
                found[tries[done]] = done.result()
                told(tries[done], done.result())
        return found

    def one(self, crate: str) -> dict[str, Verdict]:
        """The verdicts on one crate's edits."""
        return read_verdicts(crate, names_in(self.folder, crate, GATE), self.said_of(crate))

    # What rt says of a crate. It runs in a group of processes of its own, so that what it starts ends with it.
    def said_of(self, crate: str) -> str:
        given = {"stdin": subprocess.DEVNULL, "stdout": subprocess.PIPE, "stderr": subprocess.STDOUT, "text": True, "errors": "replace"}
        with self.alone:
            if self.stopped:
                return ""
            ran = subprocess.Popen(["rt", "must-fail", crate], cwd=self.folder, env=self.given, start_new_session=True, **given)
            self.running.append(ran)
        said, _ = ran.communicate()
        with self.alone:
            self.running.remove(ran)
        return said

    # Ends what still runs where this is left early.
    @contextmanager
    def ending(self) -> Iterator[None]:
        try:
            yield
        except BaseException:
            self.stop()
            raise

    def stop(self) -> None:
        """Ends each check that runs, and begins no other."""
        with self.alone:
            self.stopped = True
            running = list(self.running)
        for ran in running:
            signal_group(ran, signal.SIGTERM)
        for ran in running:
            try:
                ran.wait(SECONDS_TO_END)
            except subprocess.TimeoutExpired:
                pass
            signal_group(ran, signal.SIGKILL)


# Sends a signal to a check and all that it started.
def signal_group(ran: subprocess.Popen[str], which: signal.Signals) -> None:
    try:
        os.killpg(ran.pid, which)
    except ProcessLookupError:
        pass
