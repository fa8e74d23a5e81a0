"""What the prover made of each edit, read from what `rt must-fail` prints."""
from __future__ import annotations

import re
from collections.abc import Iterable
from dataclasses import dataclass
from enum import Enum


class Kind(Enum):
    """How a try ended. `BY_NAME` is a refusal for no more than a name that the edit took away and a proof cites, `BY_LIMIT` one for no more
    than a limit of the prover."""

    BY_CLAUSE = "refused"
    BY_NAME = "refused, only since a proof cites a name that is gone"
    BY_LIMIT = "refused, only by a limit"
    BAD = "bad"
    NOT_REFUSED = "not refused"
    NOT_TRIED = "not tried"


REFUSED = (Kind.BY_CLAUSE, Kind.BY_NAME, Kind.BY_LIMIT)

SAID = [
    ("BAD EDIT", Kind.BAD),
    ("NOT REFUSED", Kind.NOT_REFUSED),
    ("NOT TRIED", Kind.NOT_TRIED),
    ("refused, as it must be (only because a proof file names", Kind.BY_NAME),
    ("refused, as it must be (only by a limit", Kind.BY_LIMIT),
    ("refused, as it must be", Kind.BY_CLAUSE),
]
"""The words with which `rt` begins each verdict."""

LINE = re.compile(r"(?:rt: )?must-fail (\w+)/(\S+)\.edit: (.*)")
CLAUSE = re.compile(r"`returns-(?:[\w-]+-)?clause-(\w+)`")
"""The obligation of a clause where the function returns, which may say by which branch."""

OBLIGATION = re.compile(r"`([a-z]+(?:-\w+)+)`")


@dataclass(frozen=True)
class Verdict:
    """What became of one edit: `why` is the clause or the obligation by which it was refused, where the message names one, else what was
    said."""

    kind: Kind
    why: str = ""


def read_verdicts(crate: str, names: Iterable[str], said: str) -> dict[str, Verdict]:
    """The verdicts on a crate's edits of these names. One of which nothing was said wasn't tried."""
    found = {name: Verdict(Kind.NOT_TRIED, "nothing was said of it") for name in names}
    for line in said.splitlines():
        match = LINE.fullmatch(line)
        if match and match[1] == crate and match[2] in found:
            found[match[2]] = verdict_of(match[3])
    return found


# What a verdict's words say.
def verdict_of(words: str) -> Verdict:
    kind = next((kind for begin, kind in SAID if words.startswith(begin)), Kind.NOT_TRIED)
    if kind != Kind.BY_CLAUSE:
        return Verdict(kind, words)
    clause, obligation = CLAUSE.search(words), OBLIGATION.search(words)
    return Verdict(kind, clause[1] if clause else obligation[1] if obligation else "")
