"""The lines of a forecast while a program makes it: they are read as they come, so that neither has the whole of it."""
from __future__ import annotations

import subprocess
import tempfile
from collections.abc import Iterator, Sequence
from contextlib import contextmanager
from typing import BinaryIO

from journals.source import Source
from journals.trace import Trace
from program.errors import Fault, NotThere

from .reader import ForecastReader

SPENT = 7
"""The status of a program whose forecast was cut off: it is whole up to there."""


class PipeSource(Source):
    """The lines that come out of a pipe."""

    def __init__(self, name: str, pipe: BinaryIO) -> None:
        super().__init__(name)
        self._pipe = pipe

    def _open(self) -> BinaryIO:
        return self._pipe


@contextmanager
def forecast_by(words: Sequence[str], name: str, data: bytes, trace: Trace, every: int) -> Iterator[ForecastReader]:
    """The forecast of a trace by a program, which ends with the block. Raises `NotThere` where it ended otherwise than well."""
    with tempfile.TemporaryFile() as given, tempfile.TemporaryFile() as said:
        given.write(data)
        given.seek(0)
        try:
            process = subprocess.Popen([*words, "forecast", str(every)], stdin=given, stdout=subprocess.PIPE, stderr=said, bufsize=0)
        except OSError as error:
            raise NotThere(f"{words[0]} can't be run: {error.strerror or error}") from error
        with process:
            try:
                yield ForecastReader(PipeSource(f"the forecast of {name}", process.stdout), trace)
            except Fault:
                demand_good(name, words, process.wait(), said)
                raise
            except BaseException:
                process.kill()
                raise
            demand_good(name, words, process.wait(), said)


def demand_good(name: str, words: Sequence[str], status: int, said: BinaryIO) -> None:
    """Raises `NotThere` with the last thing that a program said, where it ended otherwise than well."""
    if status not in (0, SPENT):
        said.seek(0)
        lines = said.read().decode("latin-1").strip().splitlines()
        raise NotThere(f"{name}: the forecast by {words[-1]} ended with {status}: {lines[-1] if lines else 'it said nothing'}")
