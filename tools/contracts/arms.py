"""Where code takes the variants of an enum apart."""
from __future__ import annotations

import re
from collections.abc import Iterator

from .calls import split_tree

REMARK = re.compile(r"//[^\n]*|\"(?:[^\"\\]|\\.)*\"")
"""What is no code: a comment, or a text."""
OPENING, CLOSING = "([{", ")]}"
FUNCTION = re.compile(r"\bfn (\w+)")
USE = re.compile(r"^ *(?:pub(?:\([^)]*\))? )?use ([^;]*);", re.MULTILINE)
OWN = ("crate", "self", "super")
"""What a path begins with that stays in its crate."""


def known_as(name: str, crate: str, own: str, text: str) -> set[str]:
    """How a file of its own crate calls a type of a crate, by what it uses."""
    found = set()
    for use in USE.finditer(text):
        for path, known in split_tree(" ".join(use[1].split())):
            first, *_, last = path.split("::")
            if last == name and (own if first in OWN else first) == crate:
                found.add(known)
    return found


def arms(name: str, text: str) -> Iterator[tuple[str, str]]:
    """The variants of an enum that patterns of this code name, in arms of `match`, in `let`, and in `matches!`: each by its function."""
    text = REMARK.sub("", text)
    for found in re.finditer(rf"(?<![\w:]){name}::(\w+)", text):
        if is_in_pattern(text, *found.span()):
            yield FUNCTION.findall(text, 0, found.start())[-1], found[1]


def is_in_pattern(text: str, first: int, last: int) -> bool:
    """Whether a name is part of a pattern: after it, and what closes around it, comes `=>` or `=`; or it stands in `matches!`."""
    around = still_open(text[:first])
    if around and text[:around[-1]].endswith("matches!"):
        return True
    depth = 0
    for at in range(last, len(text)):
        mark, is_in_block = text[at], not around or text[around[-1]] == "{"
        if mark in OPENING:
            depth += 1
        elif mark in CLOSING and depth:
            depth -= 1
        elif mark in CLOSING and not is_in_block:
            around.pop()
        elif not depth and (mark in CLOSING or mark == ";" or mark == "," and is_in_block):
            return False
        elif not depth and mark == "=" and text[at + 1] != "=" and text[at - 1] not in "=!<>":
            return True
    return False


def still_open(text: str) -> list[int]:
    """Where the brackets stand that are open at the end of a text, the outermost first."""
    places: list[int] = []
    for found in re.finditer(r"[()\[\]{}]", text):
        if found[0] in OPENING:
            places.append(found.start())
        elif places:
            places.pop()
    return places
