"""Which wrong bodies stand where: those that the gate tries, and mutants."""
from __future__ import annotations

import os
import re
from collections.abc import Iterable, Iterator

from .edit import problem

GATE, MUTANTS = "must-fail", "mutants"
"""The folders of a crate that have edits. `rt ci` reads the first alone."""

ENDING = ".edit"
NAME = re.compile(r"[A-Za-z0-9_-][A-Za-z0-9_.-]*\.edit")


def names_in(root: str, crate: str, folder: str) -> list[str]:
    """The names of a crate's edits in one of its folders, in order."""
    path = os.path.join(root, "crates", crate, folder)
    if not os.path.isdir(path):
        return []
    return sorted(name.removesuffix(ENDING) for name in os.listdir(path) if NAME.fullmatch(name))


def path_of(root: str, crate: str, folder: str, name: str) -> str:
    """Where an edit stands."""
    return os.path.join(root, "crates", crate, folder, name + ENDING)


def crates_of(root: str) -> dict[str, list[str]]:
    """The crates of crates.txt, in its order, each with those that it uses."""
    with open(os.path.join(root, "crates.txt"), encoding="utf-8") as lines:
        heads = [line.partition("#")[0].partition(":") for line in lines]
    return {head.split()[0]: uses.split() for head, colon, uses in heads if colon}


def with_those_below(root: str, crates: Iterable[str]) -> list[str]:
    """The crates, and all of the checkout that they use, near or far."""
    uses, left, found = crates_of(root), list(crates), []
    while left:
        crate = left.pop()
        if crate in uses and crate not in found:
            found.append(crate)
            left += uses[crate]
    return found


def crates_with_edits(root: str, crates: Iterable[str]) -> list[str]:
    """Those of the crates that have wrong bodies."""
    return [it for it in crates if names_in(root, it, GATE) or names_in(root, it, MUTANTS)]


def problems(root: str) -> Iterator[str]:
    """What is wrong with edits, a line each."""
    for crate in crates_of(root):
        yield from problems_of(root, crate)


# What is wrong with a crate's edits: one can't be put in, a name stands in both folders, a file is no edit.
def problems_of(root: str, crate: str) -> Iterator[str]:
    at = os.path.join(root, "crates", crate)
    for folder in (GATE, MUTANTS):
        path = os.path.join(at, folder)
        for name in sorted(os.listdir(path)) if os.path.isdir(path) else []:
            why = problem(at, os.path.join(path, name)) if NAME.fullmatch(name) else "it is no file NAME.edit"
            if why and not name.endswith(".md"):
                yield f"crates/{crate}/{folder}/{name}: {why}"
    for name in sorted({*names_in(root, crate, GATE)} & {*names_in(root, crate, MUTANTS)}):
        yield f"crates/{crate}/{MUTANTS}/{name}{ENDING}: one of this name stands in {GATE}/ too"
