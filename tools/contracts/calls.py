"""Reads a crate's .rt files, which stand in the layout of `rt fmt`: its modules, and their calls with their comments and contracts.

Nothing is compiled: an item begins in the column of its module or impl, and its contract ends at its body.
"""
from __future__ import annotations

import os
import re
from dataclasses import dataclass, field

PUB = r"(?P<pub>pub(?:\([^)]*\))? )?"
FUNCTION = re.compile(PUB + r"(?:unsafe |const |extern \"C\" )*fn (?P<name>\w+)")
BLOCK = re.compile(PUB + r"(?P<word>mod|trait|impl)\b(?P<rest>.*)")
DECLARED = re.compile(PUB + r"(?:struct|enum|trait|type|union) (?P<name>\w+)")
USE = re.compile(PUB + r"use (?P<tree>[^;]*);")
CLAUSE = re.compile(r"ensures(?: (?P<name>\w+))? \{(?: (?P<definition>[A-Z]\w*) \}$)?")
DEMAND = re.compile(r"requires(?: \w+)? \{")
GHOST = re.compile(r"ghost use Rattle\.(?P<crate>\w+)\.specs\.[\w.]+(?:\.\{(?P<names>.*)\}| as (?P<alias>\w+));")
REQUIRES = "Requires: "


@dataclass
class Clause:
    """An `ensures` clause. Its comment is the one right above it, or above the run of clauses in which it stands; clauses of one run have
    one number. A clause may be no more than a definition's name."""
    name: str
    comment: str
    run: int
    definition: str


@dataclass
class Call:
    """A function. Its name is that in its module, as `Type::name`; `of` is the trait that an impl gives, if it stands in one. `demands` has
    the texts of its `requires` clauses, and `requires` what its comment says of them. `homes` has the crate of each definition that its
    file names. `body` is how many lines its body has, between its brackets."""
    name: str
    comment: str
    clauses: list[Clause]
    is_open: bool
    of: str
    demands: list[str]
    requires: str
    homes: dict[str, str]
    body: int


@dataclass
class Use:
    """What a `use` brings in, by which name, and whether it is shown to others."""
    path: str
    name: str
    is_open: bool


@dataclass
class Module:
    """A module: its calls, the types that it declares and those that others see, what it brings in, and its modules."""
    parent: Module | None
    calls: list[Call] = field(default_factory=list)
    types: set[str] = field(default_factory=set)
    shown: set[str] = field(default_factory=set)
    uses: list[Use] = field(default_factory=list)
    modules: dict[str, Module] = field(default_factory=dict)


def column(line: str) -> int:
    return len(line) - len(line.lstrip())


def plain(line: str) -> str:
    """The line with its strings and characters emptied, and without its comment, so that its brackets can be counted."""
    line = re.sub(r'"(?:[^"\\]|\\.)*"', '""', line)
    line = re.sub(r"'(?:[^'\\]|\\.[^']*)'", "''", line)
    return line.split("//")[0].rstrip()


def balance(line: str) -> int:
    """How many more brackets a line opens than it closes."""
    line = plain(line)
    return sum(map(line.count, "({[")) - sum(map(line.count, ")}]"))


def first_paragraph(lines: list[str]) -> str:
    """The first paragraph of comment lines, as one line."""
    words: list[str] = []
    for line in lines:
        if not line or line.startswith("```"):
            break
        words.append(line)
    return " ".join(words)


def required(lines: list[str]) -> str:
    """What a paragraph of comment lines says that the call requires, as one line."""
    at = next((at for at, line in enumerate(lines) if line.startswith(REQUIRES)), len(lines))
    return first_paragraph(lines[at:]).removeprefix(REQUIRES)


def ghost_homes(lines: list[str]) -> dict[str, str]:
    """The crate of each definition, and of each file of definitions, that a file names."""
    found: dict[str, str] = {}
    for line in lines:
        given = GHOST.match(line.strip())
        for name in (given["names"] or given["alias"]).split(",") if given else ():
            found[name.split(" as ")[-1].strip()] = given["crate"]
    return found


def split_tree(tree: str) -> list[tuple[str, str]]:
    """The paths that a `use` names, each with the name that it is given: `a::{b, c as d}` has `a::b` as b and `a::c` as d."""
    tree = tree.strip()
    if "{" not in tree:
        path, _, name = tree.partition(" as ")
        return [(path.strip(), (name or path).strip().rsplit("::", 1)[-1])]
    head, rest = tree.split("{", 1)
    parts, depth = [""], 0
    for letter in rest.rsplit("}", 1)[0]:
        depth += (letter == "{") - (letter == "}")
        if letter == "," and not depth:
            parts.append("")
        else:
            parts[-1] += letter
    return [(head.strip() + path, name) for part in parts if part.strip() for path, name in split_tree(part)]


def without_parameters(text: str) -> str:
    """What follows the parameters that a text begins with: `<T: A<B>> C` has ` C`."""
    depth = 0
    for at, letter in enumerate(text):
        depth += (letter == "<") - (letter == ">" and text[at - 1] != "-")
        if not depth:
            return text[at + 1:] if at else text
    return ""


def type_name(text: str) -> str:
    """The name of the type in `Type<T>`, `&mut Type` or `a::Type`."""
    return re.sub(r"<.*|&|\bmut\b", "", text).strip().rsplit("::", 1)[-1]


class Reader:
    """Reads one file into a module, line by line."""

    def __init__(self, path: str, folder: str, parent: Module | None = None) -> None:
        with open(path, encoding="utf-8") as source:
            self.lines = source.read().split("\n")
        self.homes = ghost_homes(self.lines)
        self.folder = folder
        self.at = 0
        self.module = Module(parent)
        self.items(0, "", "", False)

    def head(self) -> str:
        """What the file says that it is."""
        return first_paragraph([line[3:].strip() for line in self.lines if line.startswith("//!")])

    # The items from this column on, of a type or a trait where they stand in a block, up to the line that closes it.
    def items(self, indent: int, owner: str, of: str, all_open: bool) -> None:
        comment: list[str] = []
        tested = False
        while self.at < len(self.lines):
            text = self.lines[self.at].strip()
            if text and column(self.lines[self.at]) < indent:
                return
            if not text:
                comment = []
                self.at += 1
            elif text.startswith("//"):
                comment.append(text.lstrip("/!").strip())
                self.at += 1
            elif text.startswith(("#[", "#![")):
                tested = tested or "cfg(test)" in text or text == "#[test]"
                self.skip_attribute()
            else:
                if tested:
                    self.skip_item()
                else:
                    self.item(owner, of, all_open, comment)
                comment, tested = [], False

    def skip_attribute(self) -> None:
        depth = balance(self.lines[self.at])
        while depth > 0:
            self.at += 1
            depth += balance(self.lines[self.at])
        self.at += 1

    def skip_item(self) -> None:
        depth = 0
        while self.at < len(self.lines):
            depth += balance(self.lines[self.at])
            self.at += 1
            if depth <= 0 and plain(self.lines[self.at - 1]).endswith(("}", ";")):
                return

    def item(self, owner: str, of: str, all_open: bool, comment: list[str]) -> None:
        text = self.lines[self.at].strip()
        function, block, declared, use = (kind.match(text) for kind in (FUNCTION, BLOCK, DECLARED, re.compile(PUB + "use ")))
        if declared and not owner:
            self.module.types.add(declared["name"])
            if declared["pub"] == "pub ":
                self.module.shown.add(declared["name"])
        if function:
            self.function(function, owner, of, all_open, comment)
        elif block and block["word"] == "mod":
            self.inner_module(block)
        elif block:
            self.block(block)
        elif use:
            start = self.at
            self.skip_item()
            used = USE.match(" ".join(line.strip() for line in self.lines[start:self.at]))
            if used:
                self.module.uses += [Use(path, name, used["pub"] == "pub ") for path, name in split_tree(used["tree"])]
        else:
            self.skip_item()

    def inner_module(self, block: re.Match[str]) -> None:
        name = block["rest"].strip(" ;{}")
        path = os.path.join(self.folder, name + ".rt")
        if block["rest"].endswith(";") and os.path.exists(path):
            self.module.modules[name] = Reader(path, os.path.join(self.folder, name), self.module).module
            if block["pub"] == "pub ":
                self.module.shown.add(name)
        self.skip_item()

    # A trait or an impl, whose head may take several lines.
    def block(self, block: re.Match[str]) -> None:
        head, indent = block["rest"], column(self.lines[self.at]) + 4
        while not plain(self.lines[self.at]).endswith(("{", "{}", ";")):
            self.at += 1
            head += " " + self.lines[self.at].strip()
        opens = plain(self.lines[self.at]).endswith("{")
        self.at += 1
        if not opens:
            return
        head = re.sub(r"\bwhere\b.*", "", head.rstrip("{ "))
        if block["word"] == "trait":
            self.items(indent, re.split(r"\W", head.strip())[0], "", True)
        else:
            of, _, owner = without_parameters(head).rpartition(" for ")
            self.items(indent, type_name(owner), type_name(of), bool(of))
        self.at += 1

    # A function: its clauses with the comments above them, and its body.
    def function(self, match: re.Match[str], owner: str, of: str, all_open: bool, comment: list[str]) -> None:
        indent = column(self.lines[self.at])
        clauses: list[Clause] = []
        demands: list[str] = []
        above: list[str] = []
        sentence, run, depth, body = "", 0, 0, 0
        while True:
            line = self.lines[self.at]
            text, inside = line.strip(), column(line) > indent
            clause = CLAUSE.match(text)
            if not depth and not text:
                above, sentence, run = [], "", run + 1
            elif not depth and inside and text.startswith("//"):
                above.append(text.lstrip("/ ").strip())
            elif not depth and inside and text.startswith(("requires", "ensures")):
                if above or not clause:
                    sentence, run = first_paragraph(above) if clause else "", run + 1
                above = []
                if clause:
                    clauses.append(Clause(clause["name"] or "", sentence, run, clause["definition"] or ""))
                elif text.startswith("requires"):
                    demands.append(self.demand())
            depth += balance(line)
            if not depth and (plain(line).endswith(";") or not inside and plain(line).endswith("}")):
                break
            if depth == 1 and not inside and plain(line).endswith("{"):
                body = self.skip_body(indent)
                break
            self.at += 1
        self.at += 1
        name = f"{owner}::{match['name']}" if owner else match["name"]
        is_open = all_open or match["pub"] == "pub "
        self.module.calls.append(Call(name, first_paragraph(comment), clauses, is_open, of, demands, required(comment), self.homes, body))

    # The text of the `requires` clause that begins in this line.
    def demand(self) -> str:
        words, depth, at = [], 0, self.at
        while not words or depth > 0:
            words.append(self.lines[at].strip())
            depth += balance(self.lines[at])
            at += 1
        return DEMAND.sub("", " ".join(words), count=1).strip().removesuffix("}").strip()

    # To the line that closes the body, in the function's own column. The answer is how many lines stand between.
    def skip_body(self, indent: int) -> int:
        first = self.at
        while self.lines[self.at] != " " * indent + "}":
            self.at += 1
        return self.at - first - 1
