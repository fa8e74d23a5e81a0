"""Output that is whole or isn't there: nothing is written before the journal was read to its end."""
from __future__ import annotations

import os
import sys
from contextlib import contextmanager

from .errors import OtherWords, WriteFault

TYPE_CHECKING = False
if TYPE_CHECKING:
    from collections.abc import Iterator
    from typing import TextIO

MOST_HELD = 1 << 22
"""Characters of a text that are held in memory; the rest waits in a temporary file."""


@contextmanager
def writing(name: str) -> Iterator[None]:
    """A fault of the system in here is one of writing, but that a reader has gone stays what it is."""
    try:
        yield
    except BrokenPipeError:
        raise
    except OSError as error:
        raise WriteFault(f"{name}: {error.strerror or error}") from error


@contextmanager
def held_text() -> Iterator[TextIO]:
    """A text that goes to standard output when the block has ended well, and nowhere else."""
    import shutil
    import tempfile

    with tempfile.SpooledTemporaryFile(MOST_HELD, mode="w+", encoding="utf-8", errors="surrogateescape", newline="\n") as held:
        yield held  # type: ignore[misc]
        with writing("standard output"):
            held.seek(0)
            shutil.copyfileobj(held, sys.stdout)
            sys.stdout.flush()


class Staging:
    """Files that are written in a directory of their own, and moved into the one that was named when all are whole.

    A file that lies there already is only written over where that was asked for.
    """

    def __init__(self, directory: str, is_forced: bool) -> None:
        self.directory = directory
        self._is_forced = is_forced
        self._is_new = False
        self._work = ""
        self._names: list[str] = []

    def __enter__(self) -> Staging:
        import tempfile

        with writing(self.directory):
            self._is_new = not os.path.isdir(self.directory)
            if self._is_new:
                os.mkdir(self.directory)
            self._work = tempfile.mkdtemp(prefix=".wb-", dir=self.directory)
        return self

    def __exit__(self, *what: object) -> None:
        import shutil

        shutil.rmtree(self._work, ignore_errors=True)
        if what[0] is not None and self._is_new:
            shutil.rmtree(self.directory, ignore_errors=True)

    def path(self, name: str) -> str:
        """Where a file of this name is to be written."""
        self._free(name)
        self._names.append(name)
        return os.path.join(self._work, name)

    def publish(self) -> list[str]:
        """Moves the files, and answers where they are now."""
        for name in self._names:
            self._free(name)
        with writing(self.directory):
            for name in self._names:
                os.replace(os.path.join(self._work, name), os.path.join(self.directory, name))
        return [os.path.join(self.directory, name) for name in self._names]

    def _free(self, name: str) -> None:
        path = os.path.join(self.directory, name)
        if os.path.lexists(path) and not self._is_forced:
            raise OtherWords(f"{path} lies there already (--force writes over it)")


def publish(staging: Staging) -> None:
    """Moves the files to their places, and prints these."""
    paths = staging.publish()
    with held_text() as text:
        print(*paths, sep="\n", file=text)
