"""How a line of each type is spelled: its word, and then its fields, one space between two.

A form is made from the type of the line and the trace, so that a line that names a thing which the trace hasn't is refused.
"""
from __future__ import annotations

import re
from collections.abc import Callable
from dataclasses import dataclass, fields
from enum import Enum
from functools import cache
from typing import Any, get_type_hints

from program.errors import Cause

from . import events
from .events import Event, Fold, Natural, Scope, Signed, Step, StepKind
from .trace import Trace

NATURAL = "(0|[1-9][0-9]{0,17})"
SIGNED = "(0|-?[1-9][0-9]{0,17})"

WORDS: dict[type, str] = {
    events.Timer: "timer",
    events.Limits: "limits",
    events.Period: "period",
    events.Cpu: "cpu",
    events.Write: "write",
    events.Fold: "fold",
    events.Read: "read",
    events.Count: "count",
    events.Check: "check",
    events.Claim: "claim",
    events.Batch: "batch",
    events.Done: "done",
    events.Share: "share",
    events.Estimate: "est",
    events.DiskFault: "fault",
    events.Back: "back",
    events.Notice: "notice",
    events.Age: "age",
    events.Take: "take",
    events.Steps: "steps",
    events.Step: "step",
    events.Left: "left",
    events.Census: "census",
    events.Totals: "totals",
    events.Strict: "strict",
    events.End: "end",
}
"""The word of each line but `fold`, whose second field is two in one, and `step`, whose length is the trace's."""


class NoLine(Exception):
    """A text is no line of a journal of the trace."""

    def __init__(self, cause: Cause, found: str) -> None:
        super().__init__(found)
        self.cause = cause
        self.found = found


@dataclass
class Form:
    """The lines of one type: a pattern, what makes a value of each field's text, and the fields that name a thing."""

    pattern: re.Pattern[str]
    readers: list[Callable[[str], Any]]
    names: list[tuple[int, str, int]]
    make: Callable[..., Event]

    def read(self, text: str) -> Event:
        """The event of a text of this form."""
        match = self.pattern.fullmatch(text)
        if match is None:
            raise NoLine(Cause.BAD_LINE, f"not the form of a '{text.partition(' ')[0]}' line")
        values = [read(part) for read, part in zip(self.readers, match.groups())]
        for place, thing, many in self.names:
            if values[place] >= many:
                raise NoLine(Cause.UNKNOWN_NAME, f"the trace has no {thing} {values[place]}")
        return self.make(*values)


def forms(trace: Trace) -> dict[str, Callable[[str], Event]]:
    """What reads a line, by its first word."""
    readers: dict[str, Callable[[str], Event]] = {
        word: plain(kind, word, trace).read for kind, word in WORDS.items() if kind not in (Fold, Step)
    }
    readers["fold"] = fold_reader(trace)
    readers["step"] = step_reader(trace)
    return readers


def plain(kind: type, word: str, trace: Trace) -> Form:
    """The form of a type of which each field is a number or a word."""
    many = {"domain": trace.domains, "cpu": trace.cpus, "task": len(trace.tasks), "context": len(trace.contexts),
            "flusher": len(trace.flushers), "inode": len(trace.inodes), "page": trace.pages}
    hints = hints_of(kind)
    names = [field.name for field in fields(kind)]
    patterns, readers = [word], []
    for name in names:
        pattern, reader = field_form(hints[name])
        patterns.append(pattern)
        readers.append(reader)
    things = [(place, name, many[name]) for place, name in enumerate(names) if name in many]
    return Form(re.compile(" ".join(patterns)), readers, things, kind)


@cache
def hints_of(kind: type) -> dict[str, Any]:
    """The types of the fields of a line. They are looked up once, and not for each journal."""
    return get_type_hints(kind)


def field_form(hint: Any) -> tuple[str, Callable[[str], Any]]:
    """The pattern of a field and what reads it."""
    if hint is Natural:
        return NATURAL, int
    if hint is Signed:
        return SIGNED, int
    values = words_of(hint)
    return f"({'|'.join(values)})", values.__getitem__


def words_of(kind: type[Enum]) -> dict[str, Any]:
    """The values of an enum by their words."""
    return {each.value: each for each in kind}


def fold_reader(trace: Trace) -> Callable[[str], Fold]:
    """Reads `fold c0 1 8`."""
    pattern = re.compile(f"fold ([cd]){NATURAL} {NATURAL} {SIGNED}")
    scopes = words_of(Scope)
    many = {Scope.DOMAIN: trace.domains, Scope.CONTEXT: len(trace.contexts)}

    def read(text: str) -> Fold:
        match = pattern.fullmatch(text)
        if match is None:
            raise NoLine(Cause.BAD_LINE, "not the form of a 'fold' line")
        scope, number = scopes[match[1]], int(match[2])
        if number >= many[scope]:
            raise NoLine(Cause.UNKNOWN_NAME, f"the trace has no {scope.name.lower()} {number}")
        return Fold(scope, Natural(number), Natural(int(match[3])), Signed(int(match[4])))

    return read


def step_reader(trace: Trace) -> Callable[[str], Step]:
    """Reads `step 12 0 look 2 21067`. A journal has millions of these: one match, and nothing twice."""
    kinds = words_of(StepKind)
    pair = f" {NATURAL} {NATURAL}"
    pattern = re.compile(f"step {NATURAL} ([0-9]+|timer) ({'|'.join(kinds)}){pair * trace.domains}")
    seats: dict[str, int | None] = {str(cpu): cpu for cpu in range(trace.cpus)}
    seats["timer"] = None

    def read(text: str) -> Step:
        match = pattern.fullmatch(text)
        if match is None:
            raise NoLine(Cause.BAD_LINE, f"not the form of a 'step' line with {trace.domains} counts and bounds")
        number, who, kind, *numbers = match.groups()
        if who not in seats:
            raise NoLine(Cause.UNKNOWN_NAME, f"the trace has no CPU {who}")
        values = tuple(map(int, numbers))
        return Step(int(number), seats[who], kinds[kind], values[::2], values[1::2])

    return read
