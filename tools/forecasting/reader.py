"""The order in which a forecast's lines stand, read forward while a program writes it. What they say isn't judged."""
from __future__ import annotations

from collections.abc import Iterator
from contextlib import closing
from typing import TypeVar

from journals.events import End, Event, Totals
from journals.forms import NoLine, plain
from journals.source import Source
from journals.trace import Trace
from program.errors import Cause, Fault

from .events import ContextRow, DomainRow, Every, From, Rows, TaskRow

WORDS: dict[type, str] = {Every: "forecast", From: "from", DomainRow: "domain", ContextRow: "context", TaskRow: "task", Totals: "totals", End: "end"}

Kind = TypeVar("Kind")


class ForecastReader:
    """The rows of a forecast of a trace, interval by interval.

    `every` is how many ticks an interval has, once the first rows were given or the end has come; `totals` and `ending` are there at the end.
    """

    def __init__(self, source: Source, trace: Trace) -> None:
        self.source = source
        self.trace = trace
        self.every = 0
        self.totals: Totals | None = None
        self.ending = ""
        self._lines = source.lines()
        self._forms = {word: plain(kind, word, trace).read for kind, word in WORDS.items()}

    def intervals(self) -> Iterator[Rows]:
        """The rows of each interval. Raises `Fault` at the first line that is none of a forecast of the trace, or out of its place."""
        with closing(self._lines):
            self.every = self._one(Every).ticks
            event, following = self._next(), 0
            while isinstance(event, From):
                if event.number < following:
                    raise self.source.fault(Cause.OUT_OF_PLACE, "intervals stand in order, each once")
                following = event.number + 1
                rows = Rows(event.number)
                event = self._rows(rows)
                yield rows
            if not isinstance(event, Totals):
                raise self._misplaced("from", "totals")
            self.totals = event
            self.ending = self._one(End).ending.value
            for self._text in self._lines:
                raise self.source.fault(Cause.OUT_OF_PLACE, "a line after the end of the forecast")

    def _rows(self, rows: Rows) -> Event:
        """Reads the rows of an interval, and answers the first line after them."""
        rows.domains = [self._numbered(DomainRow, number) for number in range(self.trace.domains)]
        rows.contexts = [self._numbered(ContextRow, number) for number in range(len(self.trace.contexts))]
        event = self._next()
        while isinstance(event, TaskRow):
            if rows.tasks and event.task <= rows.tasks[-1].task:
                raise self.source.fault(Cause.OUT_OF_PLACE, "tasks stand in order, each once")
            rows.tasks.append(event)
            event = self._next()
        return event

    def _numbered(self, kind: type[Kind], number: int) -> Kind:
        """The row of a domain or a context, all of which stand in each interval."""
        row = self._one(kind)
        word = WORDS[kind]
        if getattr(row, word) != number:
            raise self.source.fault(Cause.OUT_OF_PLACE, f"the row of {word} {number} stands here")
        return row

    def _one(self, kind: type[Kind]) -> Kind:
        event = self._next()
        if not isinstance(event, kind):
            raise self._misplaced(WORDS[kind])
        return event

    def _next(self) -> Event:
        text = next(self._lines, None)
        if text is None:
            raise self.source.fault(Cause.ENDS_EARLY, "the text ends before the forecast does", self.source.number + 1)
        self._text = text
        read = self._forms.get(text.partition(" ")[0])
        if read is None:
            raise self.source.fault(Cause.BAD_LINE, "no line of a forecast begins so")
        try:
            return read(text)
        except NoLine as fault:
            raise self.source.fault(fault.cause, fault.found) from None

    def _misplaced(self, *wanted: str) -> Fault:
        word = self._text.partition(" ")[0]
        return self.source.fault(Cause.OUT_OF_PLACE, f"a '{word}' line where {' or '.join(wanted)} can stand")
