"""The journals of tools/judged/, and what is changed in them."""
from __future__ import annotations

import pathlib
import re
import subprocess
import sys
from collections.abc import Iterator

from .cases import Case, sharing

TOOLS = pathlib.Path(__file__).resolve().parent.parent
FOLDER = TOOLS / "judged"


def changes() -> list[Case]:
    """The journal of each trace of the folder, and each change of it."""
    return sharing([case for path in sorted(FOLDER.glob("*.trace")) for case in changes_of(path)])


def changes_of(path: pathlib.Path) -> Iterator[Case]:
    """The journal of a trace, and each change of it."""
    trace, journal = path.read_text(encoding="ascii").splitlines(), journal_of(path)
    yield Case(len(journal), "lawful", f"case_{path.stem}", trace, journal)
    for number, line in enumerate(path.with_suffix(".changes").read_text(encoding="ascii").splitlines(), 1):
        change = re.fullmatch("(.*): (.*) -> (.*)", line)
        if not change:
            raise SystemExit(f"{path.stem}.changes, line {number}: no change")
        said, old, new = change.groups()
        yield Case(len(journal), said, f"case_{path.stem}_{number}", trace, changed(journal, old.split(" / "), new.split(" / ")))


def journal_of(path: pathlib.Path) -> list[str]:
    """The lawful journal of a trace: the one beside it, or that of its replay."""
    beside = path.with_suffix(".journal")
    return beside.read_text(encoding="ascii").splitlines() if beside.exists() else replayed(path.read_text(encoding="ascii"))


def replayed(trace: str) -> list[str]:
    """The journal of a trace's replay, without its steps."""
    told = subprocess.run([sys.executable, TOOLS / "replay.py"], input=trace, capture_output=True, text=True, check=True).stdout.splitlines()
    return [line for line in told if not re.match("step( |s$)", line)]


def changed(journal: list[str], old: list[str], new: list[str]) -> list[str]:
    """The journal where the first run of the old lines reads as the new ones."""
    for at in range(len(journal)):
        if journal[at:at + len(old)] == old:
            return [*journal[:at], *new, *journal[at + len(old):]]
    raise SystemExit(f"no such lines: {' / '.join(old)}")
