"""What came of tries, as a table by crate, and its place in a document."""
from __future__ import annotations

from collections import Counter
from collections.abc import Iterable, Mapping, Sequence

from .verdicts import REFUSED, Kind, Verdict

REFUSALS = ("Refused by a clause or an obligation", "Only by a name", "Only by a limit")
HEADS = ("Crate", "Tried", *REFUSALS, "Bad", "Not refused", "Not tried", "Commit", "Date")
RULE = "|" + "---|" * len(HEADS)
UNNAMED = "others"
"""A refusal whose message names neither a clause nor an obligation."""

TOOL = "tools/mutants"


def row(crate: str, found: Mapping[str, Verdict], commit: str, date: str) -> str:
    """A crate's row."""
    of = {kind: sorted(name for name, it in found.items() if it.kind == kind) for kind in Kind}
    tried = len(found) - len(of[Kind.BAD]) - len(of[Kind.NOT_TRIED])
    named = [names_cell(of[kind]) for kind in (Kind.BY_NAME, Kind.BY_LIMIT, Kind.BAD, Kind.NOT_REFUSED, Kind.NOT_TRIED)]
    cells = [f"`{crate}`", str(tried), clauses_cell(found[name] for name in of[Kind.BY_CLAUSE]), *named, commit, date]
    return "|" + "|".join(f" {it} " if it else " " for it in cells) + "|"


# How many were refused by a clause or an obligation, and how often by each: the most first.
def clauses_cell(verdicts: Iterable[Verdict]) -> str:
    counts = Counter(it.why or UNNAMED for it in verdicts)
    if not counts:
        return ""
    order = sorted(counts, key=lambda it: (it == UNNAMED, -counts[it], it))
    shown = [(it if it == UNNAMED else f"`{it}`") + (f" {counts[it]}" if counts[it] > 1 else "") for it in order]
    return f"{sum(counts.values())}: {', '.join(shown)}"


# How many there are, with their names.
def names_cell(names: Sequence[str]) -> str:
    return f"{len(names)}: {', '.join(f'`{name}`' for name in names)}" if names else ""


def table(rows: Iterable[str]) -> list[str]:
    """The lines of the table."""
    return ["| " + " | ".join(HEADS) + " |", RULE, *rows]


def merged(lines: Sequence[str], rows: Mapping[str, str], order: Sequence[str]) -> list[str]:
    """The lines of a table that stands, with these crates' rows in place of theirs. Crates stand in the order given; others go."""
    stand = {line.split("|")[1].strip(" `"): line for line in lines if line.startswith("| `")}
    found = {**stand, **rows}
    return table(found[crate] for crate in order if crate in found)


def last_line(found: Iterable[Mapping[str, Verdict]]) -> str:
    """How many were refused, not refused, bad and not tried."""
    counts = Counter(it.kind for verdicts in found for it in verdicts.values())
    refused = sum(counts[kind] for kind in REFUSED)
    return f"{refused} refused, {counts[Kind.NOT_REFUSED]} not refused, {counts[Kind.BAD]} bad, {counts[Kind.NOT_TRIED]} not tried"


def are_refused(found: Iterable[Mapping[str, Verdict]]) -> bool:
    """Whether each was refused."""
    return all(it.kind in REFUSED for verdicts in found for it in verdicts.values())
