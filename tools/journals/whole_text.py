"""A text that is read whole, with the place of what is refused: a trace or a law text, which are short."""
from __future__ import annotations

import io
import sys
from collections.abc import Iterator
from typing import Protocol

from program.errors import Cause, Fault, ReadFault

MOST_BYTES = 1 << 26
"""Bytes of the longest text that `wbsim` reads."""


class Refused(Exception):
    """A line is faulty: the cause, what was found, and at which column of the line, from 1."""

    def __init__(self, cause: Cause, found: str, column: int) -> None:
        super().__init__(found)
        self.cause = cause
        self.found = found
        self.column = column


class LineReader(Protocol):
    """What takes a text line by line."""

    def line(self, text: str) -> None:
        """The next line, without its line feed. Raises `Refused`."""

    def spell(self, text: str) -> None:
        """Raises `Refused` where the text isn't spelled as the next line can be, whatever it says."""


class WholeText:
    """A text and its lines, where a byte is one character. `number` and `text` are those of the line that was given last."""

    def __init__(self, path: str, data: bytes) -> None:
        self.path = path
        self.data = data
        self.number = 0
        self.text = ""

    def lines(self) -> Iterator[str]:
        """Each line, also a last one without its line feed."""
        for line in io.BytesIO(self.data):
            self.number += 1
            self.text = line.decode("latin-1")
            yield self.text

    def give(self, reader: LineReader) -> None:
        """All lines to a reader. Raises `Fault` at the first that is refused."""
        try:
            for line in self.lines():
                if not line.endswith("\n"):
                    reader.spell(line)
                    raise Refused(Cause.BAD_LINE, "no line feed at the end", len(line) + 1)
                reader.line(line[:-1])
        except Refused as refused:
            raise Fault(self.path, self.number, refused.cause, refused.found, refused.column) from None


def read_whole(path: str) -> WholeText:
    """The text of a file, or of standard input where the path is `-`."""
    name = "standard input" if path == "-" else path
    try:
        with open(sys.stdin.fileno() if path == "-" else path, "rb", closefd=path != "-") as file:
            data = file.read(MOST_BYTES + 1)
    except OSError as error:
        raise ReadFault(f"{name}: {error.strerror or error}") from error
    if len(data) > MOST_BYTES:
        raise Fault(name, 0, Cause.TOO_LONG, f"more than {MOST_BYTES} bytes")
    return WholeText(name, data)
