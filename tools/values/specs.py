"""The specs of the crate: values of traces and journals, and what is claimed of them."""
from __future__ import annotations

import re
from collections.abc import Sequence

from .cases import Case
from .imports import imported
from .journals import journal_value
from .lines import LINES, lines_used
from .traces import trace_value

MADE = "made by tools/judged-values"
ABOUT = {
    "Found": "Journals of which an independent program told the verdict",
    "Strict": "Journals of strict devices of which an independent program told the verdict",
    "Ageing": "Journals of ageing devices of which an independent program told the verdict",
    "Changed": "Journals with throttled writers, changing limits, failing disks, inodes that age, chunks, given estimates, scans that go round and "
               "paces, and their changes",
}
"""The files of journals, and what each is about."""

Files = Sequence[tuple[str, Sequence[Case]]]
"""Files of journals: the name of each, and its cases."""


def lines() -> str:
    """The file of lines as values."""
    return f"-- The lines of traces and journals as values: {MADE}.\n{imported(LINES)}\n{LINES}"


def told(said: str) -> str:
    """What a verdict says of its journal."""
    broken = re.fullmatch(r"broken (\d+) (\d+)", said)
    return f", which breaks point {broken[1]} at line {broken[2]}" if broken else ", which is lawful"


def journals(file: str, taken: Sequence[Case]) -> str:
    """A file of traces, each once, and journals as values."""
    out = []
    for case in taken:
        if case.traced == f"{case.name}_trace":
            out.append(f"\n-- the trace of the next journals\nabbrev pub {case.traced} : Trace\n{case.traced} = {trace_value(case.trace)}\n")
        out.append(f"\n-- a journal of it{told(case.said)}\nabbrev pub {case.name} : Journal\n{case.name} = {journal_value(case.journal)}\n")
    text = "".join(out)
    return f"-- {ABOUT[file]}: {MADE}.\n{imported(text)}{lines_used(text)}{text}"


def used(files: Files) -> str:
    """The imports of all journals of these files."""
    out = []
    for file, taken in files:
        names = ", ".join(dict.fromkeys(name for case in taken for name in (case.traced, case.name)))
        out.append(f"use Rattle.wbt_judged.specs.{file}.{{{names}}}\n")
    return "".join(out)


def verdicts(files: Files) -> str:
    """The file of what is claimed of them all."""
    out = [f"-- The verdict on each judged journal: {MADE}.\n"]
    out.append("use Rattle.std.specs.Prelude.{◌≡◌}\nuse Rattle.wbt_journal.specs.Checks.{with_marks}\n")
    out.append("use Rattle.wbt_journal.specs.Verdict.{lawful, broken, verdict_of}\n")
    out.append(used(files))
    out.append("\n-- the definitions agree with each\npub record AreJudged : Type 0 where\n")
    out += [f"  pub is_{case.name} : {claim(case)}\n" for _, taken in files for case in taken]
    return "".join(out)


def claim(case: Case) -> str:
    """That the verdict of the definitions is the one that was told."""
    return f"verdict_of {case.traced} (with_marks {case.traced} {case.name}) ≡ {case.said}"
