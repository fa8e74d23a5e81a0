"""The judged cases of a folder, and which of them are taken."""
from __future__ import annotations

import pathlib
import re
from collections.abc import Collection, Sequence
from typing import NamedTuple

TRACE_WORDS = frozenset(
    "cpus cap set avail device cgroup context inode task flusher write rest order tick halt strict expire chunk estimate cyclic pace".split())
JOURNAL_WORDS = frozenset(
    "timer limits period cpu write fold read count check claim batch done share est fault back notice age take left census totals end".split())
"""Words of lines of which a value is made."""


class Case(NamedTuple):
    """A trace with a journal, and the verdict on it: `lawful`, or `broken` with a point and a line. It has so many lines in all. Another case
    with the same trace may give the trace its name."""

    size: int
    said: str
    name: str
    trace: list[str]
    journal: list[str]
    first: str = ""

    @property
    def traced(self) -> str:
        """The name of the trace."""
        return f"{self.first or self.name}_trace"

    @property
    def point(self) -> str:
        """The verdict without its line."""
        return " ".join(self.said.split()[:2])


def cases(folder: str) -> list[Case]:
    """Those of which a value is made, the smallest first."""
    found = (case_of(path) for path in sorted(pathlib.Path(folder).glob("*.in")))
    return sorted(case for case in found if case)


def sharing(taken: Sequence[Case]) -> list[Case]:
    """The cases, of which those with one trace name it by the first of them."""
    first: dict[tuple[str, ...], str] = {}
    return [case._replace(first=first.setdefault(tuple(case.trace), case.name)) for case in taken]


def case_of(path: pathlib.Path) -> Case | None:
    """The case of a text, where it has a verdict and a value."""
    verdict = path.with_suffix(".out").read_text(encoding="ascii").split()
    if not verdict or verdict[0] not in ("lawful", "broken"):
        return None
    lines = path.read_text(encoding="ascii").splitlines()
    at = lines.index("journal")
    trace, journal = lines[:at], lines[at + 1:]
    if not (has_only(TRACE_WORDS, trace) and has_only(JOURNAL_WORDS, journal)):
        return None
    said = "lawful" if verdict[0] == "lawful" else f"broken {verdict[2]} {verdict[4]}"
    return Case(len(lines), said, "case_" + re.sub("[^0-9a-z]", "_", path.stem), trace, journal)


def has_only(words: Collection[str], lines: Sequence[str]) -> bool:
    """Whether each line begins with one of the words."""
    return all(line.split(" ")[0] in words for line in lines)


# ---- what a case is about


def strict_devices(trace: Sequence[str]) -> set[str]:
    """The numbers of strict devices."""
    return {line.split(" ")[1] for line in trace if line.startswith("strict ")}


def is_strict(case: Case) -> bool:
    """Whether a device is strict."""
    return bool(strict_devices(case.trace))


def is_ageing(case: Case) -> bool:
    """Whether a device is ageing."""
    return any(line.startswith("expire ") for line in case.trace)


def writes_for_age(case: Case) -> bool:
    """Whether an inode is written for its age."""
    return any(line.startswith("age ") for line in case.journal)


def throttles_strictly(case: Case) -> bool:
    """Whether a check decides otherwise than free about a writer of a strict device."""
    strict = strict_devices(case.trace)
    held = {line.split(" ")[1] for line in case.trace if line.startswith("context ") and line.split(" ")[2] in strict}
    checks = [line.split(" ") for line in case.journal if line.startswith("check ")]
    return any(check[2] in held and check[5] != "free" for check in checks)


# ---- which are taken


def chosen(found: Sequence[Case], most: int, longest: int) -> list[Case]:
    """The smallest of each verdict's point in turn, until there are so many. Of a point whose cases are all longer there is the smallest."""
    by_point: dict[str, list[Case]] = {}
    for case in found:
        if case.size <= longest or case.point not in by_point:
            by_point.setdefault(case.point, []).append(case)
    taken: list[Case] = []
    while len(taken) < most and any(by_point.values()):
        for point in sorted(by_point):
            if by_point[point] and len(taken) < most:
                taken.append(by_point[point].pop(0))
    return taken


def chosen_strict(found: Sequence[Case]) -> list[Case]:
    """The smallest of each verdict's point, and the smallest lawful one that throttles a writer of a strict device."""
    return smallest_with(found, [case for case in found if case.said == "lawful" and throttles_strictly(case)])


def chosen_ageing(found: Sequence[Case]) -> list[Case]:
    """The smallest of each verdict's point, and the smallest lawful one that writes an inode for its age."""
    return smallest_with(found, [case for case in found if case.said == "lawful" and writes_for_age(case)])


def smallest_with(found: Sequence[Case], wanted: Sequence[Case]) -> list[Case]:
    """The smallest of each verdict's point, and the first of those that are wanted."""
    taken = chosen(found, len(found), 0)
    return taken + [case for case in wanted[:1] if case not in taken]
