"""The equations of definitions and proofs: what each names on its left side, and whether it does anything."""
from __future__ import annotations

import re
from collections.abc import Iterable, Iterator
from typing import NamedTuple

NAME = re.compile(r"[^\s(){}\[\],;]+")
WORD = re.compile(rf"{NAME.pattern}|[(){{}}\[\]]")
OPENING, CLOSING = ("(", "[", "{"), (")", "]", "}")
USE = re.compile(r"^use Rattle\.(?P<module>[\w'.-]+?)(?:\.\{(?P<names>[^}]*)\}| as (?P<known>\S+))?$", re.MULTILINE)
REMARK = re.compile(r"(?<!\S)--(?:\s.*)?$", re.MULTILINE)
HEADS = ("use ", "pub ", "abbrev ", "data ", "record ")
"""What no equation begins with."""
NO_LEFT_SIDE = (":", "→", "λ", "let", "in", "where")
"""What no left side has outside brackets."""
NOTHING = ("[]", "None", "tt", "Unit", "Unit {0}")
"""Right sides that are empty."""


class Equation(NamedTuple):
    """An equation: what it defines, its left side after that, and its right side."""

    defined: str
    left: str
    right: str

    @property
    def patterns(self) -> set[str]:
        """The words of its left side."""
        return set(NAME.findall(self.left))

    @property
    def is_idle(self) -> bool:
        """Whether its right side is empty, or an argument as it is."""
        return self.right in NOTHING or f"({self.right})" in self.left or self.right in arguments(self.left)

    @property
    def goes_on(self) -> bool:
        """Whether its right side does no more than to ask the same of the rest."""
        words = set(NAME.findall(self.right))
        return self.defined in words and words <= {*self.patterns, self.defined, "tt"} - {"∷"}

    @property
    def is_computed(self) -> bool:
        """Whether it holds by computing alone."""
        return self.right == "refl"

    @property
    def does_nothing(self) -> bool:
        """Whether it is one of these."""
        return self.is_idle or self.goes_on or self.is_computed


def arguments(left: str) -> list[str]:
    """The words of a left side that stand outside brackets."""
    found, depth = [], 0
    for word in WORD.findall(left):
        depth += (word in OPENING) - (word in CLOSING)
        if not depth and word not in CLOSING:
            found.append(word)
    return found


def spellings(module: str, names: Iterable[str], text: str) -> dict[str, str]:
    """How a file spells these names of a module, by what it imports: each word with the name that it means."""
    found = {}
    for use in USE.finditer(text):
        if use["module"] != module:
            continue
        if use["names"] is None:
            found |= {f"{use['known'] or module.rpartition('.')[2]}.{name}": name for name in names}
        else:
            pairs = [it.strip().partition(" as ") for it in use["names"].split(",")]
            found |= {known or name: name for name, _, known in pairs if name in names}
    return found


def equations(text: str, words: Iterable[str]) -> Iterator[Equation]:
    """The equations of a file, also of its inner ones, whose left side has one of these words."""
    wanted, begun = set(words), -1
    lines = REMARK.sub("", text).split("\n") if wanted else []
    for at, line in enumerate(lines):
        if not any(word in line for word in wanted) or line.startswith(HEADS) or wanted.isdisjoint(NAME.findall(line)):
            continue
        first = first_line(lines, at)
        equation = equation_at(lines, first) if first > begun else None
        if equation and not wanted.isdisjoint(equation.patterns):
            yield equation
            begun = first


def first_line(lines: list[str], at: int) -> int:
    """Where the left side begins that a line may go on: lines that are further out, with words of a left side alone."""
    while at and 0 < len(lines[at - 1].strip()) and indent(lines[at - 1]) < indent(lines[at]):
        if not {"=", *NO_LEFT_SIDE}.isdisjoint(NAME.findall(lines[at - 1])):
            break
        at -= 1
    return at


def equation_at(lines: list[str], at: int) -> Equation | None:
    """The equation that begins with a line, where one does: it goes on in the lines after it that are further in."""
    last = at + 1
    while last < len(lines) and (not lines[last].strip() or indent(lines[last]) > indent(lines[at])):
        last += 1
    whole = "\n".join(lines[at:last])
    first, depth = None, 0
    for found in WORD.finditer(whole):
        word = found[0]
        if first is None:
            first = found
        depth += (word in OPENING) - (word in CLOSING)
        if first[0] in OPENING or depth < 0 or not depth and word in NO_LEFT_SIDE:
            return None
        if not depth and word == "=":
            return Equation(first[0], flat(whole[first.end():found.start()]), flat(whole[found.end():]))
    return None


def flat(text: str) -> str:
    """A text in one line."""
    return " ".join(text.split())


def indent(line: str) -> int:
    """How far in a line begins."""
    return len(line) - len(line.lstrip())
