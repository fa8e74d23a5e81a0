"""The definitions of a file of worked runs, worked out: names stand for records, lists, strings of bytes and numbers.

They are of few forms: `record { f = e; .. }`, `record e { f = e; .. }`, lists of `∷` and `[]`, `codes "text"`, `++`, numbers, and a
name with arguments. What has no definition stands for itself, as `Write 0 0 0 2`, which is the tuple `("Write", 0, 0, 0, 2)`.
"""
from __future__ import annotations

import json
import re
from collections.abc import Iterator
from typing import Any

TOKEN = re.compile(r'\s*("(?:[^"\\]|\\.)*"|\[\]|\+\+|[∷≡{}();=]|[^\s"{}();=∷≡\[\]]+)')
DEFINITION = re.compile(r"^(\w+)((?: \w+)*) =(.*(?:\n(?:[ }].*|$))*)", re.MULTILINE)
LOWEST = {"≡": 0, "++": 1, "∷": 1}


class Values:
    """What stands in files of definitions, by name."""

    def __init__(self, *texts: str) -> None:
        self.bodies: dict[str, tuple[list[str], list[str]]] = {}
        for text in texts:
            bare = re.sub(r"^\s*--.*$", "", text, flags=re.MULTILINE)
            for name, names, body in DEFINITION.findall(bare):
                self.bodies[name] = names.split(), TOKEN.findall(body)

    def named(self, name: str) -> Any:
        """What a name without arguments stands for."""
        return self.applied(name, [])

    def applied(self, name: str, given: list[Any]) -> Any:
        """What a name stands for with these arguments: a value, or a tuple where there is no definition."""
        if name not in self.bodies:
            return (name, *given) if given else name
        names, tokens = self.bodies[name]
        return Reading(self, tokens, dict(zip(names, given))).whole()

    def __iter__(self) -> Iterator[str]:
        return iter(self.bodies)


class Reading:
    """One expression while it is read."""

    def __init__(self, values: Values, tokens: list[str], given: dict[str, Any]) -> None:
        self.values, self.tokens, self.given, self.place = values, tokens, given, 0

    def whole(self) -> Any:
        """All of it."""
        value = self.joined(0)
        if self.place != len(self.tokens):
            raise ValueError(f"unread: {' '.join(self.tokens[self.place:][:9])}")
        return value

    def ahead(self) -> str:
        """The next token, or nothing."""
        return self.tokens[self.place] if self.place < len(self.tokens) else ""

    def next(self, wanted: str = "") -> str:
        """Takes the next token."""
        token = self.ahead()
        if not token or wanted and token != wanted:
            raise ValueError(f"'{wanted}' is wanted where '{token}' stands")
        self.place += 1
        return token

    def joined(self, level: int) -> Any:
        """Of `≡`, of `++` and `∷`, or of none."""
        left = self.joined(level + 1) if level == 0 else self.application()
        if LOWEST.get(self.ahead()) != level:
            return left
        sign = self.next()
        right = self.joined(level)
        return ("≡", left, right) if sign == "≡" else left + right if sign == "++" else [left, *right]

    def application(self) -> Any:
        """A name with its arguments, or one thing alone."""
        if self.ahead() == "record":
            return self.thing()
        name = self.ahead()
        if not re.fullmatch(r"[A-Za-z]\w*", name) or name in self.given:
            return self.thing()
        self.next()
        given = []
        while self.ahead() and self.ahead() not in "≡++∷){};":
            given.append(self.thing())
        return given[0] if name == "codes" else self.values.applied(name, given)

    def thing(self) -> Any:
        """What needs no brackets."""
        token = self.next()
        if token == "(":
            value = self.joined(0)
            self.next(")")
            return value
        if token == "record":
            return self.record()
        if token == "[]":
            return []
        if token[0] == '"':
            return json.loads(token)
        if token.isdigit():
            return int(token)
        return self.given[token] if token in self.given else self.values.named(token)

    def record(self) -> dict[str, Any]:
        """The fields, and those of the record that is changed."""
        fields: Any = {} if self.ahead() == "{" else self.thing()
        fields = dict(fields) if isinstance(fields, dict) else {"": fields}
        self.next("{")
        while self.ahead() != "}":
            name = self.next()
            self.next("=")
            fields[name] = self.joined(0)
            if self.ahead() == ";":
                self.next()
        self.next("}")
        return fields
