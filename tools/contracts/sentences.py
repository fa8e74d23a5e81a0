"""Reads docs/clauses.txt: what a clause says, or a part of a definition, where the sources have no sentence of their own above it.

    wbt_io::read_all all, end: At success the bytes are all that was left, and none is left after.
    wbt_top_plain::IsControlled ends.done: It is done exactly where ..
    wbt_queue::Queues::put others; wbt_queue::Queues::take others: Nothing else of the pass changes.

A line has a call or a definition, the clauses or parts of which it speaks, and the sentence; without these it speaks of the whole. Where
the sentence is that of several calls or definitions, they stand before it one after another.
"""
from __future__ import annotations

import re
from dataclasses import dataclass

NAME = r"[\w']+(?:\.[\w']+)*"
KEY = rf"\w+::[\w']+(?:::\w+)*(?: {NAME}(?:, {NAME})*)?"
LINE = re.compile(rf"(?P<keys>{KEY}(?:; {KEY})*): (?P<says>.+)")


@dataclass
class Sentence:
    """A sentence, of one call or definition of a line."""
    crate: str
    thing: str
    names: tuple[str, ...]
    says: str

    def key(self) -> str:
        """Of what it speaks, as the line has it."""
        return f"{self.crate}::{self.thing}" + (" " + ", ".join(self.names) if self.names else "")


def read_sentences(path: str) -> tuple[list[Sentence], list[str]]:
    """The sentences of the file, and what is wrong with its lines: that one is none, or has the sentence of a line before it."""
    found, wrong = [], []
    known: dict[str, int] = {}
    with open(path, encoding="utf-8") as lines:
        for number, line in enumerate(lines, 1):
            line = line.strip()
            if not line or line.startswith("#"):
                continue
            given = LINE.fullmatch(line)
            if not given:
                wrong.append(f"line {number} is no sentence: {line}")
                continue
            first = known.setdefault(given["says"], number)
            if first != number:
                wrong.append(f"line {number} has the sentence of line {first}: {given['says']}")
            for key in given["keys"].split("; "):
                path, _, names = key.partition(" ")
                crate, _, thing = path.partition("::")
                found.append(Sentence(crate, thing, tuple(names.split(", ")) if names else (), given["says"]))
    return found, wrong
