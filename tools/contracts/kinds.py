"""What a new kind of a type costs: how many equations and patterns name each of its kinds, by crate."""
from __future__ import annotations

import os
import re
from collections import Counter
from collections.abc import Iterable, Iterator
from functools import cache
from statistics import median
from typing import NamedTuple

from gate.crates import read_crates

from .arms import arms, known_as
from .equations import Equation, equations, spellings

FOLDERS = ("src", "specs", "proofs")


class Type(NamedTuple):
    """A type of kinds: of what they are kinds, its name, and the crate and the file that declare it."""

    of: str
    name: str
    crate: str
    file: str

    @property
    def is_enum(self) -> bool:
        """Whether it is one of the code."""
        return self.file.endswith(".rt")

    @property
    def module(self) -> str:
        """The module by which definitions have its kinds."""
        stem = os.path.basename(self.file).partition(".")[0]
        return f"{self.crate}.specs.declared.{stem}.{self.name}.TheVariants" if self.is_enum else f"{self.crate}.specs.{stem}"

    def kinds(self, root: str) -> list[str]:
        """Those that it declares."""
        with open(os.path.join(root, "crates", self.crate, self.file), encoding="utf-8") as file:
            text = file.read()
        if self.is_enum:
            found = re.search(rf"^pub enum {self.name}(?:<[^>\n]*>)? {{\n(.*?)^}}", text, re.MULTILINE | re.DOTALL)
            kinds = re.findall(r"^    (\w+)\b", found[1], re.MULTILINE) if found else []
        else:
            found = re.search(rf"^pub data {self.name} : .*\n((?:  .*\n)*)", text, re.MULTILINE)
            kinds = re.findall(r"^  ([\w'-]+) :", found[1], re.MULTILINE) if found else []
        if not kinds:
            raise ValueError(f"there is no type {self.name} with kinds in {self.crate}/{self.file}")
        return kinds


TYPES = (
    Type("entry", "Entry", "wbt_journal", "src/entry.rt"),
    Type("entry", "Told", "wbt_journal", "specs/Told.antt"),
    Type("entry", "Act", "wbt_audit_walk", "src/act.rt"),
    Type("step", "StepKind", "wbt_grant", "src/who.rt"),
    Type("step", "Step", "wbt_grant", "specs/Kinds.antt"),
    Type("item of a turn", "Step", "wbt_replay_moves", "src/todo.rt"),
    Type("item of a turn", "Silent", "wbt_replay_moves", "src/todo.rt"),
    Type("item of a turn", "TimerStep", "wbt_replay_moves", "src/todo.rt"),
    Type("item of a turn", "TimerSilent", "wbt_replay_moves", "src/todo.rt"),
    Type("phase", "ReplayPhase", "wbt_replay_moves", "src/state.rt"),
    Type("phase", "Phase", "wbt_flusher", "src/work.rt"),
    Type("line of a trace", "Kind", "wbt_trace_text", "src/kind.rt"),
    Type("line of a trace", "Line", "wbt_trace_text", "src/line.rt"),
    Type("line of a trace", "Action", "wbt_trace", "src/trace.rt"),
    Type("line of a trace", "Order", "wbt_trace", "src/trace.rt"),
    Type("line of a journal", "Row", "wbt_journal_reader", "src/row.rt"),
)
"""An entry of a CPU's part, in code, as definitions have it and as an audit has it; a step; what a turn of a replay has to do; what a flusher is
at; a line of a trace, and what it has a task or the order do; and a line of a journal."""


class Count:
    """What is counted of a type: its equations, and those of them that are idle, go on, or hold by computing, which do nothing; how many
    equations, equations that do nothing, and patterns of the code name each kind; and which kinds each definition or proof, and each function,
    names."""

    def __init__(self) -> None:
        self.equations = self.idle = self.going_on = self.computed = 0
        self.named: Counter[str] = Counter()
        self.nothing: Counter[str] = Counter()
        self.arms: Counter[str] = Counter()
        self.places: dict[str, set[str]] = {}
        self.functions: dict[str, set[str]] = {}

    def take(self, equation: Equation, file: str, spelled: dict[str, str]) -> None:
        """An equation of a file that spells the kinds so."""
        named = {spelled[word] for word in equation.patterns if word in spelled}
        self.equations += 1
        self.idle += equation.is_idle
        self.going_on += equation.goes_on
        self.computed += equation.is_computed
        self.named.update(named)
        self.nothing.update(named if equation.does_nothing else ())
        self.places.setdefault(f"{file} {equation.defined}", set()).update(named)

    def take_arm(self, function: str, kind: str, file: str) -> None:
        """A pattern of a file's function."""
        self.arms[kind] += 1
        self.functions.setdefault(f"{file} {function}", set()).add(kind)

    def add(self, other: Count) -> None:
        """What another one has."""
        self.equations += other.equations
        self.idle += other.idle
        self.going_on += other.going_on
        self.computed += other.computed
        self.named += other.named
        self.nothing += other.nothing
        self.arms += other.arms
        for mine, its in ((self.places, other.places), (self.functions, other.functions)):
            for place, named in its.items():
                mine.setdefault(place, set()).update(named)

    def row(self, counted: Type, kinds: list[str]) -> list[str]:
        """Its numbers. What is of a kind is the middle of what the kinds have."""
        numbers = [self.equations, middle(self.named, kinds), self.idle + self.going_on + self.computed, middle(self.nothing, kinds),
                   self.idle, self.going_on, self.computed]
        return [f"{it:g}" for it in numbers + [self.arms.total(), middle(self.arms, kinds), len(self.functions)] * counted.is_enum]

    def of_all(self, kinds: list[str]) -> tuple[list[str], list[str]]:
        """The definitions and proofs, and the functions, that name all kinds."""
        tables, functions = ([place for place, named in its.items() if len(named) == len(kinds)] for its in (self.places, self.functions))
        return tables, functions


def middle(each: Counter[str], kinds: Iterable[str]) -> float:
    """The median of what the kinds have."""
    return median(each[kind] for kind in kinds)


def counted_in(text: str, path: str, counted: Type, kinds: list[str]) -> Count:
    """What a file has of a type: its path begins with its crate."""
    count = Count()
    is_its_own = path == f"{counted.crate}/{counted.file}"
    if path.endswith(".rt"):
        names = known_as(counted.name, counted.crate, path.partition("/")[0], text) if counted.is_enum and f"{counted.name}::" in text else set()
        for name in names | ({counted.name} if is_its_own else set()):
            for function, kind in arms(name, text):
                count.take_arm(function, kind, path)
    elif is_its_own or counted.module in text:
        spelled = spellings(counted.module, kinds, text) | ({kind: kind for kind in kinds} if is_its_own else {})
        for equation in equations(text, spelled):
            count.take(equation, path, spelled)
    return count


def texts(root: str, crate: str) -> Iterator[tuple[str, str]]:
    """Each file of a crate, by its path from the crate on, and its text."""
    top = os.path.join(root, "crates")
    for folder in FOLDERS:
        for where, folders, names in os.walk(os.path.join(top, crate, folder)):
            folders.sort()
            for name in sorted(names):
                if name.endswith((".rt", ".antt")):
                    with open(os.path.join(where, name), encoding="utf-8") as file:
                        yield os.path.relpath(os.path.join(where, name), top), file.read()


@cache
def counts(root: str) -> dict[Type, dict[str, Count]]:
    """What each crate has of each type that it takes apart, the lowest crate first."""
    kinds = {it: it.kinds(root) for it in TYPES}
    found: dict[Type, dict[str, Count]] = {it: {} for it in TYPES}
    for crate in read_crates(os.path.join(root, "crates.txt")):
        for path, text in texts(root, crate):
            for it in TYPES:
                count = counted_in(text, path, it, kinds[it])
                if count.equations or count.arms:
                    found[it].setdefault(crate, Count()).add(count)
    return found


def whole(crates: dict[str, Count]) -> Count:
    """What all crates have."""
    all_of = Count()
    for count in crates.values():
        all_of.add(count)
    return all_of


def summary(root: str) -> list[str]:
    """A row for each type: what one of its kinds has in the middle, how many tables name all of them, and how many functions one or all."""
    heads = ["kinds", "equations", "do nothing", "tables", "patterns", "functions", "for all"]
    rows = []
    for it, crates in counts(root).items():
        kinds, all_of = it.kinds(root), whole(crates)
        rows_of_all, functions = all_of.of_all(kinds)
        numbers = [len(kinds), middle(all_of.named, kinds), middle(all_of.nothing, kinds), len(rows_of_all)]
        numbers += [middle(all_of.arms, kinds), len(all_of.functions), len(functions)] * it.is_enum
        rows.append([it.of, f"{it.name} of {it.crate}", *(f"{number:g}" for number in numbers), *["-"] * 3 * (not it.is_enum)])
    first, second = (max(len(row[at]) for row in rows) for at in (0, 1))
    lines = [f"{'a kind of':{first}}  {'type':{second}}  {'  '.join(heads)}"]
    for row in rows:
        numbers = "  ".join(f"{number:>{len(head)}}" for number, head in zip(row[2:], heads))
        lines.append(f"{row[0]:{first}}  {row[1]:{second}}  {numbers}")
    return lines


def tables(root: str) -> list[str]:
    """A table for each type, and below it the definitions, proofs and functions with rows for all kinds."""
    return [line for it, crates in counts(root).items() for line in [*table(it, it.kinds(root), crates), ""]][:-1]


def table(counted: Type, kinds: list[str], crates: dict[str, Count]) -> list[str]:
    """The lines of one type."""
    all_of = whole(crates)
    heads = ["equations", "of a kind", "do nothing", "of a kind", "idle", "go on", "refl"]
    heads += ["patterns", "of a kind", "functions"] * counted.is_enum
    rows = [[crate, *count.row(counted, kinds)] for crate, count in crates.items()] + [["all", *all_of.row(counted, kinds)]]
    wide = max(len(row[0]) for row in rows)
    lines = [f"{counted.name} of {counted.crate}: {len(kinds)} kinds", f"{'':{wide}}  {'  '.join(heads)}"]
    lines += [f"{row[0]:{wide}}  " + "  ".join(f"{number:>{len(head)}}" for number, head in zip(row[1:], heads)) for row in rows]
    return lines + ["with rows for all kinds:"] + [f"  {place}" for places in all_of.of_all(kinds) for place in places]
