"""Which crate a process below `rt ci` serves, and for what."""
from __future__ import annotations

import re
from collections.abc import Container, Iterable
from enum import Enum

from .process import Process


class Work(Enum):
    """What is done for a crate."""

    PROOF = "proof"
    TESTS = "tests"
    SEED = "seed"
    EDITS = "edits"


Served = tuple[str, Work]

RAN = re.compile(r"/rt-run-[^/]+/bin/(\w+)$")
OF_CRATE = re.compile(r"/crates/(\w+)(?:/|$)")


def served_by_itself(process: Process, crates: Container[str]) -> Served | None:
    """What a process says of itself by its command and its folder; nothing of one that only its parent knows."""
    ran = next(filter(None, map(RAN.search, process.cmd)), None)
    if ran:
        return program_of(ran[1], crates)
    name = process.after("--crate-name")
    if "/rt-edit-" in process.cwd and name:
        return name, Work.SEED if process.after("--incremental").endswith("/seed") else Work.EDITS
    if name:
        return name, Work.TESTS if "--test" in process.cmd else Work.PROOF
    folder = next(filter(None, map(OF_CRATE.search, (process.cwd, *process.cmd))), None)
    if not folder or folder[1] not in crates:
        return None
    is_of_tests = any(re.search(rf"/{folder[1]}_tests(\.\w+)?$", f"/{word}") for word in process.cmd)
    return folder[1], Work.TESTS if is_of_tests else Work.PROOF


def program_of(name: str, crates: Container[str]) -> Served | None:
    """Whose program or tests are run that have this name."""
    if name in crates:
        return name, Work.PROOF
    tested = name.removesuffix("_tests")
    return (tested, Work.TESTS) if tested != name and tested in crates else None


def served(processes: Iterable[Process], crates: Container[str]) -> list[tuple[Process, Served | None]]:
    """Each process with what it serves. The compiler's and the linker's processes serve what those serve that started them."""
    known: dict[int, Served | None] = {}
    found = []
    for it in sorted(processes, key=lambda it: (it.start, it.pid)):
        own = served_by_itself(it, crates) or known.get(it.ppid)
        known[it.pid] = own
        found.append((it, own))
    return found


def is_check(process: Process) -> bool:
    """Whether it proves: one check of a crate is one such process."""
    return process.cmd[1:2] in (("build",), ("check",)) and "--crate-checked" not in process.cmd
