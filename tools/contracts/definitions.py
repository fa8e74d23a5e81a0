"""Reads the definitions of a crate from the .antt files of its specs/: their comments, and the fields of those that are records."""
from __future__ import annotations

import os
import re
from dataclasses import dataclass, field

RECORD = re.compile(r"(?:pub )?record (?P<name>[\w']+)")
FIELD = re.compile(r"  (?:pub )?(?P<name>[\w']+) : (?P<type>.*)")
OTHER = re.compile(r"(?:[a-z]+ )*(?:abbrev|data)\b(?: pub)? (?P<name>[\w']+)|pub (?P<plain>[\w']+) :")
IMPORT = re.compile(r"use Rattle\.(?P<crate>\w+)\.specs\.[\w.]+\.\{(?P<names>.*)\}")
NAMED = re.compile(r"[A-Z][\w']*")


@dataclass
class Field:
    """A field of a record, with its type."""
    name: str
    type: str
    comment: str


@dataclass
class Definition:
    """A definition: the comment above it, its text, and the fields that it has where it is a record. `imports` has what its file takes
    from elsewhere: the crate and the name there."""
    name: str
    file: str
    comment: str
    text: str
    is_record: bool
    imports: dict[str, tuple[str, str]]
    fields: list[Field] = field(default_factory=list)


class Specs:
    """The definitions of a crate, and by name. Where two files have a name, the first one has it."""

    def __init__(self, folder: str) -> None:
        self.every: list[Definition] = []
        self.found: dict[str, Definition] = {}
        for where, folders, names in os.walk(os.path.join(folder, "specs")):
            folders.sort()
            for name in sorted(names):
                if name.endswith(".antt"):
                    self.read(os.path.join(where, name), os.path.relpath(os.path.join(where, name), folder))

    def read(self, path: str, file: str) -> None:
        with open(path, encoding="utf-8") as source:
            lines = source.read().split("\n")
        imports: dict[str, tuple[str, str]] = {}
        comment: list[str] = []
        current: Definition | None = None
        for line in lines:
            text = line.strip()
            imported, given = IMPORT.match(line), FIELD.match(line)
            if imported:
                for name in imported["names"].split(","):
                    first, _, known = name.strip().partition(" as ")
                    imports[known or first] = (imported["crate"], first)
            elif not text:
                comment, current = [], None
            elif text.startswith("--"):
                comment.append(text.lstrip("- ").strip())
            elif not line.startswith(" "):
                current = self.begin(line, file, " ".join(comment), imports) or current
                comment = []
            elif current and current.is_record and given and not line.startswith("   "):
                current.fields.append(Field(given["name"], given["type"], " ".join(comment)))
                comment = []
            elif current and current.fields:
                current.fields[-1].type += " " + text
            if current and text and not text.startswith("--"):
                current.text += " " + text

    # The definition that a line begins.
    def begin(self, line: str, file: str, comment: str, imports: dict[str, tuple[str, str]]) -> Definition | None:
        record, other = RECORD.match(line), OTHER.match(line)
        name = record["name"] if record else other and (other["name"] or other["plain"])
        if not name:
            return None
        made = Definition(name, file, comment, "", bool(record), imports)
        self.every.append(made)
        self.found.setdefault(name, made)
        return made


def has_part(every: dict[str, Specs], crate: str, name: str, path: str) -> bool:
    """Whether a definition has a part: a field of a record, and then a field of a record that the one before it names, near or far; or
    a case, which is a word of the definition."""
    owner = every[crate].found[name]
    first, *further = path.split(".")
    if not owner.is_record:
        return not further and re.search(rf"(?<![\w']){re.escape(first)}(?![\w'])", owner.text) is not None
    found = next((it for it in owner.fields if it.name == first), None)
    for word in further:
        if not found:
            return False
        crate, owner, found = below(every, crate, owner, found, word)
    return found is not None


def below(every: dict[str, Specs], crate: str, owner: Definition, over: Field, name: str) -> tuple[str, Definition, Field | None]:
    """The nearest record with a field of this name, among those that a field names and those that they name."""
    ahead = [(crate, owner, word) for word in NAMED.findall(over.type)]
    seen = set()
    while ahead:
        near, user, word = ahead.pop(0)
        crate, known = user.imports.get(word, (near, word))
        found = every[crate].found.get(known) if crate in every else None
        if not found or (crate, known) in seen:
            continue
        seen.add((crate, known))
        for it in found.fields:
            if it.name == name:
                return crate, found, it
        ahead += [(crate, found, further) for further in NAMED.findall(found.text)]
    return crate, owner, None
