"""The order in which a journal's lines stand, read forward: a text that doesn't keep it is no journal of the trace.

What the lines say is not judged: that a count is right, or that totals agree with entries, is for `wbsim audit` to find.
"""
from __future__ import annotations

from collections.abc import Generator, Iterator
from contextlib import closing
from typing import TypeVar

from program.errors import Cause, Fault

from .events import (
    Age, Back, Batch, Census, Check, Claim, Count, Cpu, DiskFault, Done, End, Estimate, Event, Fold, Left, Limits, Notice, Period,
    Read, Share, Step, Steps, Strict, Take, Timer, Totals, Write,
)
from .forms import WORDS, NoLine, forms
from .source import Source
from .trace import Trace

Part = Generator[Event, None, Event]
"""Gives the events of a part of the journal, and answers the first event after it."""

ENTRIES = (Write, Fold, Claim, Batch, Done, Share, Estimate, DiskFault, Back, Notice, Age, Take)
"""What a CPU's part has besides checks, which are lines in a fixed order."""

Kind = TypeVar("Kind", bound=Event)


class Reader:
    """The events of a journal, one for each line, in the order of the text.

    `text` is the line of the event that was given last, and `number` its number.
    """

    def __init__(self, path: str, trace: Trace, source: Source | None = None) -> None:
        self.source = source or Source(path)
        self.trace = trace
        self.text = ""
        self._lines = self.source.lines()
        self._forms = forms(trace)

    @property
    def number(self) -> int:
        """The line that was given last, from 1."""
        return self.source.number

    def events(self) -> Iterator[Event]:
        """All lines. Raises `Fault` at the first that is none, or out of its place, and where the text ends early."""
        with closing(self._lines):
            yield from self._journal()

    def _journal(self) -> Iterator[Event]:
        yield self._one(Timer)
        event = yield from self._timer()
        for cpu in range(self.trace.cpus):
            if not isinstance(event, Cpu) or event.cpu != cpu:
                raise self._misplaced(f"cpu {cpu}")
            yield event
            event = yield from self._cpu()
        if isinstance(event, Steps):
            yield event
            event = yield from self._steps()
        event = yield from self._left(event)
        if not isinstance(event, Census):
            raise self._misplaced("left", "census")
        yield event
        yield self._one(Totals)
        event = yield from self._strict()
        if not isinstance(event, End):
            raise self._misplaced("end")
        yield event
        for self.text in self._lines:
            raise self.source.fault(Cause.OUT_OF_PLACE, "a line after the end of the journal")

    def _timer(self) -> Part:
        while isinstance(event := self._next(), (Limits, Period)):
            yield event
        return event

    def _cpu(self) -> Part:
        while True:
            event = self._next()
            if isinstance(event, ENTRIES):
                yield event
            elif isinstance(event, Read):
                yield from self._check(event)
            elif isinstance(event, (Cpu, Steps, Left, Census)):
                return event
            else:
                raise self._misplaced("an entry of the CPU", "the next part")

    def _check(self, read: Read) -> Iterator[Event]:
        if read.domain != 0:
            raise self.source.fault(Cause.OUT_OF_PLACE, "a check reads the global domain first")
        yield read
        event = self._next()
        if isinstance(event, Read) and event.domain != 0:
            yield event
            event = self._next()
        if not isinstance(event, Count):
            raise self._misplaced("count")
        context = event.context
        yield event
        check = self._one(Check)
        if check.context != context:
            raise self.source.fault(Cause.OUT_OF_PLACE, f"a check of context {context} stands here")
        yield check

    def _steps(self) -> Part:
        following = 1
        while isinstance(event := self._next(), Step):
            if event.number != following:
                raise self.source.fault(Cause.OUT_OF_PLACE, f"step {following} stands here")
            following += 1
            yield event
        if following == 1:
            raise self._misplaced("step")
        return event

    def _left(self, event: Event) -> Part:
        least = 0
        while isinstance(event, Left):
            if event.page < least:
                raise self.source.fault(Cause.OUT_OF_PLACE, "pages that are left stand in order")
            least = event.page + 1
            yield event
            event = self._next()
        return event

    def _strict(self) -> Part:
        """A line for each context of a strict device, which a run over threads doesn't have."""
        event = self._next()
        if not isinstance(event, Strict):
            return event
        for context in self.trace.strict_contexts():
            if not isinstance(event, Strict) or event.context != context:
                raise self._misplaced(f"strict {context}")
            yield event
            event = self._next()
        return event

    def _one(self, kind: type[Kind]) -> Kind:
        event = self._next()
        if not isinstance(event, kind):
            raise self._misplaced(WORDS[kind])
        return event

    def _next(self) -> Event:
        text = next(self._lines, None)
        if text is None:
            raise self.source.fault(Cause.ENDS_EARLY, "the text ends before the journal does", self.number + 1)
        self.text = text
        read = self._forms.get(text.partition(" ")[0])
        if read is None:
            raise self.source.fault(Cause.BAD_LINE, "no line of a journal begins so")
        try:
            return read(text)
        except NoLine as fault:
            raise self.source.fault(fault.cause, fault.found) from None

    def _misplaced(self, *wanted: str) -> Fault:
        word = self.text.partition(" ")[0]
        return self.source.fault(Cause.OUT_OF_PLACE, f"a '{word}' line where {' or '.join(wanted)} can stand")
