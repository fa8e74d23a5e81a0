"""The program `tools/mutants`."""
from __future__ import annotations

import argparse
import os
import shutil
import signal
import sys
import tempfile
import time
from collections.abc import Iterator, Sequence
from contextlib import contextmanager

from contracts.block import block, put_block

from .results import TOOL, are_refused, last_line, merged, row, table
from .scratch import Scratch, changed_paths, commit_of
from .standing import GATE, MUTANTS, crates_of, crates_with_edits, names_in, problems
from .trying import Trying
from .verdicts import REFUSED, Verdict

DOCUMENT = os.path.join("docs", "PROVED.md")
ENDING = (signal.SIGHUP, signal.SIGINT, signal.SIGTERM)


def run(root: str, words: Sequence[str], usage: str) -> int:
    """Does what the words ask of a checkout, and gives the status."""
    try:
        asked = parser(usage).parse_args(words)
        if asked.list:
            return list_all(root)
        crates = crates_with_edits(root, crates_of(root))
        why = objection(root, asked, crates)
        if why:
            print(f"mutants: {why}", file=sys.stderr)
            return 1
        return try_all(root, [it for it in crates if it in asked.names or not asked.names], asked.jobs, asked.write)
    except OSError as error:
        print(f"mutants: {error}", file=sys.stderr)
        return 1


def parser(usage: str) -> argparse.ArgumentParser:
    about, _, words = usage.partition("\n\nusage: ")
    made = argparse.ArgumentParser("tools/mutants", words.partition("\n\n")[0], about)
    made.add_argument("names", nargs="*", metavar="NAME", help="crates (all, unless given)")
    made.add_argument("--jobs", type=int, default=max(1, (os.cpu_count() or 1) // 2), metavar="N", help="tries N crates at a time")
    made.add_argument("--write", action="store_true", help=f"puts the rows into {DOCUMENT}")
    made.add_argument("--list", action="store_true", help="tries none: prints how many there are, and which can't be put in")
    return made


def objection(root: str, asked: argparse.Namespace, crates: Sequence[str]) -> str:
    """Why nothing can be tried; nothing where it can."""
    for name in asked.names:
        if name not in crates:
            return f"there is no crate {name} that has wrong bodies"
    if asked.jobs < 1:
        return "at least one crate is tried at a time"
    if not shutil.which("rt"):
        return "rt isn't there, so nothing can be tried"
    changed = changed_paths(root) if asked.write else []
    return f"what would be written is of no commit, since {changed[0]} isn't committed" if changed else ""


def list_all(root: str) -> int:
    """Prints how many stand where, and which can't be put in."""
    gate = mutants = bad = 0
    for crate in crates_with_edits(root, crates_of(root)):
        counts = [len(names_in(root, crate, folder)) for folder in (GATE, MUTANTS)]
        print(f"{crate}: {counts[0]} in the gate, {counts[1]} mutants")
        gate, mutants = gate + counts[0], mutants + counts[1]
    for problem in problems(root):
        bad += 1
        print(f"bad: {problem}")
    print(f"{gate} in the gate, {mutants} mutants, {bad} bad")
    return 1 if bad else 0


def try_all(root: str, crates: Sequence[str], jobs: int, writes: bool) -> int:
    """Tries the crates' edits in a scratch clone, and prints what became of them."""
    commit = commit_of(root) + (" and changes" if changed_paths(root) else "")
    date = time.strftime("%Y-%m-%d", time.gmtime())
    with scratch_of(root) as scratch:
        scratch.put_mutants(crates)
        scratch.bring_kept(crates)
        found = Trying(scratch.folder, scratch.room, jobs).all(crates, tell)
    rows = {crate: row(crate, found[crate], commit, date) for crate in crates}
    print("\n".join(table(rows.values())))
    if writes:
        path = os.path.join(root, DOCUMENT)
        put_block(path, TOOL, merged(block(path, TOOL), rows, crates_with_edits(root, crates_of(root))))
    print(last_line(found.values()))
    return 0 if are_refused(found.values()) else 1


@contextmanager
def scratch_of(root: str) -> Iterator[Scratch]:
    """A scratch clone, which is removed at the end, also where a signal ends the program."""
    before = {which: signal.signal(which, lambda number, _: sys.exit(128 + number)) for which in ENDING}
    folder = tempfile.mkdtemp(prefix="mutants-")
    try:
        yield Scratch(root, folder)
    finally:
        shutil.rmtree(folder, ignore_errors=True)
        for which, handler in before.items():
            signal.signal(which, handler)


def tell(crate: str, found: dict[str, Verdict]) -> None:
    """Says on standard error that a crate is done, and what was said of those that weren't refused."""
    print(f"{crate}: {last_line([found])}", file=sys.stderr)
    for name, it in sorted(found.items()):
        if it.kind not in REFUSED:
            print(f"{crate}/{name}: {it.why}", file=sys.stderr, flush=True)
