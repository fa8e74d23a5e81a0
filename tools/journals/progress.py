"""How far the reading is, on standard error where that is a terminal."""
from __future__ import annotations

import sys
import time
from typing import TextIO

SECONDS_BETWEEN = 0.25
MEGABYTE = 1_000_000


class Progress:
    """A line that is written over itself. It says nothing where the stream is no terminal."""

    def __init__(self, name: str, whole: int | None, stream: TextIO | None = None) -> None:
        self.stream = sys.stderr if stream is None else stream
        self.name = name
        self.whole = whole
        self.read = 0
        self.next_at = time.monotonic() + SECONDS_BETWEEN
        self.shown = False
        self.is_seen = self.stream.isatty()

    def add(self, count: int) -> None:
        """So many bytes more were read."""
        self.read += count
        if not self.is_seen:
            return
        now = time.monotonic()
        if now >= self.next_at:
            self.next_at = now + SECONDS_BETWEEN
            self._show()

    def end(self) -> None:
        """The line is taken away again, so that what follows stands alone."""
        if self.shown:
            self.stream.write("\r\033[K")
            self.stream.flush()
            self.shown = False

    def _show(self) -> None:
        so_far = f"{self.read / MEGABYTE:.1f}"
        of = f" of {self.whole / MEGABYTE:.1f} MB, {100 * self.read // self.whole} percent" if self.whole else " MB"
        self.stream.write(f"\r\033[K{self.name}: {so_far}{of}")
        self.stream.flush()
        self.shown = True
