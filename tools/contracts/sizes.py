"""How large the repository is: its lines, long bodies, calls with many clauses, and definitions without a comment."""
from __future__ import annotations

import os
from collections.abc import Iterator
from functools import cache

from gate.crates import read_crates

from .calls import Call, Module
from .crate import Crate
from .definitions import Specs
from .kinds import texts

PART = "wbt_replay"
"""What the crates of the ordered run and of its laws begin with."""
TESTS = "_tests"
"""What a crate of tests ends with."""
MOST_BODY = 40
"""What a body has at most."""
MOST_CLAUSES = 15
"""What a call has at most."""


def crates(root: str) -> list[str]:
    """All crates, the lowest first."""
    return list(read_crates(os.path.join(root, "crates.txt")))


@cache
def read(root: str, crate: str) -> Crate:
    """A crate, as it is read once."""
    return Crate(os.path.join(root, "crates", crate))


def lines(root: str) -> dict[str, int]:
    """How many lines the code, the definitions and the proofs of each crate have."""
    return {crate: sum(text.count("\n") for _, text in texts(root, crate)) for crate in crates(root)}


def calls_in(module: Module, path: str = "") -> Iterator[tuple[str, Call]]:
    """The calls of a module and of those in it, by their paths."""
    for call in module.calls:
        yield path + call.name, call
    for name, inner in module.modules.items():
        yield from calls_in(inner, f"{path}{name}::")


def long_bodies(root: str) -> list[str]:
    """The functions that are no tests and have a long body, with its lines, the longest first."""
    found = [(call.body, f"{crate}::{path}") for crate in crates(root) if not crate.endswith(TESTS)
             for path, call in calls_in(read(root, crate).root) if call.body > MOST_BODY]
    return [f"{path}: {body} lines" for body, path in sorted(found, key=lambda it: (-it[0], it[1]))]


def many_clauses(root: str) -> list[str]:
    """The public calls with many clauses, and how many, the greatest first."""
    found = [(len(call.clauses), f"{crate}::{name}") for crate in crates(root)
             for name, calls in read(root, crate).public.items() for call in calls if len(call.clauses) > MOST_CLAUSES]
    return [f"{name}: {count} clauses" for count, name in sorted(found, key=lambda it: (-it[0], it[1]))]


def without_comment(root: str) -> dict[str, int]:
    """How many definitions of a crate's specs have no comment above them, where there are such."""
    bare = {crate: sum(not it.comment for it in Specs(os.path.join(root, "crates", crate)).every) for crate in crates(root)}
    return {crate: count for crate, count in bare.items() if count}


def sizes(root: str) -> list[str]:
    """A row for each of these. Lines are in thousands."""
    counted, bare = lines(root), without_comment(root)
    replays = sum(count for crate, count in counted.items() if crate.startswith(PART))
    return [f"lines of code, definitions and proofs: {thousands(sum(counted.values()))}, of {PART}*: {thousands(replays)}",
            f"bodies above {MOST_BODY} lines: {len(long_bodies(root))}",
            f"public calls with more than {MOST_CLAUSES} clauses: {len(many_clauses(root))}",
            f"definitions without a comment: {sum(bare.values())}, in {len(bare)} crates"]


def thousands(count: int) -> str:
    """A number of lines, to the nearest thousand."""
    return f"{round(count / 1000)} thousand"


def sizes_by_name(root: str) -> list[str]:
    """What the rows count."""
    parts = (("bodies", long_bodies(root)), ("clauses", many_clauses(root)),
             ("without a comment", [f"{crate}: {count}" for crate, count in without_comment(root).items()]))
    return [line for head, found in parts for line in [f"{head}:", *(f"  {it}" for it in found)]]
