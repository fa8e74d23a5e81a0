"""A text of lines, read piece by piece: never more of it in memory than a piece."""
from __future__ import annotations

import io
import os
import sys
from collections.abc import Generator, Iterator
from typing import BinaryIO

from program.errors import Cause, Fault, ReadFault

from .progress import Progress

PIECE = 1 << 18
"""Bytes that are read at once."""

MOST_LINE = 1 << 12
"""Bytes of the longest line that is looked at: a step of nine domains has under 500."""


class Source:
    """The lines of one file, or of standard input where the path is `-`.

    `number` is the line that was given last, from 1.
    """

    def __init__(self, path: str) -> None:
        self.path = "standard input" if path == "-" else path
        self.number = 0
        self._is_input = path == "-"

    def lines(self) -> Generator[str, None, None]:
        """Each line without its line feed. A byte is one character, so none is refused here but for a line without an end."""
        progress = None
        try:
            with self._open() as file:
                whole = self._size(file)
                progress = Progress(self.path, whole or None)
                yield from self._cut(file, progress)
        except OSError as error:
            raise ReadFault(f"{self.path}: {error.strerror or error}") from error
        finally:
            if progress:
                progress.end()

    def fault(self, cause: Cause, found: str, line: int | None = None) -> Fault:
        """The fault of the line that was given last, or of another."""
        return Fault(self.path, self.number if line is None else line, cause, found)

    def _size(self, file: BinaryIO) -> int:
        return os.fstat(file.fileno()).st_size

    def _open(self) -> BinaryIO:
        if self._is_input:
            return open(sys.stdin.fileno(), "rb", buffering=0, closefd=False)
        return open(self.path, "rb", buffering=0)

    def _cut(self, file: BinaryIO, progress: Progress) -> Iterator[str]:
        rest = ""
        while piece := file.read(PIECE):
            progress.add(len(piece))
            lines = (rest + piece.decode("latin-1")).split("\n")
            rest = lines.pop()
            for line in lines:
                self.number += 1
                yield line
            if len(rest) > MOST_LINE:
                raise self.fault(Cause.BAD_LINE, f"more than {MOST_LINE} bytes without a line feed", self.number + 1)
        if rest:
            raise self.fault(Cause.BAD_LINE, "the text ends without a line feed", self.number + 1)


class HeldSource(Source):
    """The lines of a text that is in memory."""

    def __init__(self, path: str, data: bytes) -> None:
        super().__init__(path)
        self._data = data

    def _size(self, file: BinaryIO) -> int:
        return len(self._data)

    def _open(self) -> BinaryIO:
        return io.BytesIO(self._data)
