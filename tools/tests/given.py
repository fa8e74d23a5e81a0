"""What tests are given: the texts of texts/ and of examples/, and short ways to read them.

`throttled` has a cgroup whose task is made to pause; `threads` is of the form that a run over threads has, without steps. Both were
written by hand for these tests.
"""
from __future__ import annotations

import glob
import os
import tempfile
import unittest
from collections.abc import Iterable

from journals.events import Event
from journals.listener import Listener
from journals.reader import Reader
from journals.scene import Scene
from journals.trace import Trace
from journals.trace_reader import read_trace

TESTS = os.path.dirname(os.path.abspath(__file__))
TOOLS = os.path.dirname(TESTS)
ROOT = os.path.dirname(TOOLS)
EXAMPLES = os.path.join(ROOT, "examples")
TESTS_TEXTS = os.path.join(ROOT, "tools", "tests", "texts")


def text_path(name: str) -> str:
    """A file of texts/."""
    return os.path.join(TESTS, "texts", name)


def text(name: str) -> str:
    """What such a file has."""
    with open(text_path(name), encoding="ascii") as file:
        return file.read()


def examples() -> Iterable[tuple[str, str]]:
    """Each trace of examples/ that has its journal beside it, and that journal."""
    for path in sorted(glob.glob(os.path.join(EXAMPLES, "*.journal"))):
        yield f"{path.removesuffix('.journal')}.trace", path


def trace_of(name: str) -> Trace:
    """The trace of a name of texts/."""
    return read_trace(text_path(f"{name}.trace"))


def events_of(name: str) -> list[Event]:
    """The events of a name of texts/."""
    return list(Reader(text_path(f"{name}.journal"), trace_of(name)).events())


def heard(listener: Listener, events: Iterable[Event]) -> Listener:
    """The listener after the events."""
    for event in events:
        listener.take(event)
    return listener


def scene_of(name: str, is_over_steps: bool) -> Scene:
    """What is drawn of a journal of texts/."""
    return heard(Scene(trace_of(name), is_over_steps), events_of(name))


class WithDirectory(unittest.TestCase):
    """A test that has a directory of its own."""

    def setUp(self) -> None:
        held = tempfile.TemporaryDirectory()
        self.addCleanup(held.cleanup)
        self.directory = held.name

    def file(self, name: str, content: str) -> str:
        """A file with this content, a character a byte."""
        path = os.path.join(self.directory, name)
        with open(path, "w", encoding="latin-1", newline="\n") as file:
            file.write(content)
        return path
