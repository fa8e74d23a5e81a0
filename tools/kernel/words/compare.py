"""`wb kernel compare`: each number that a text tells, beside the one by the laws."""
from __future__ import annotations

import argparse
import json
import tempfile
from collections.abc import Iterator
from contextlib import contextmanager
from typing import TextIO

from program.output import MOST_HELD, held_text
from program.statuses import Status

from ..as_json import comparison_json, number_json
from ..comparing import Comparing, Group, Tally
from ..numbers import UNITS, Number, Verdict
from ..whole import told, told_in_pieces
from .texts import add_strict, add_text

COLUMNS = {Verdict.EQUAL: "equal", Verdict.WITHIN: "within", Verdict.BETWEEN: "between", Verdict.NOT_TOLD: "not told",
           Verdict.DIFFERENT: "different", Verdict.UNEXPLAINED: "unexplained"}


def add(command: argparse.ArgumentParser) -> None:
    """A text, and what is listed of it."""
    add_text(command)
    command.add_argument("--list", action="store_true", help="each number with both values")
    command.add_argument("--different", action="store_true", help="lists those only that aren't equal, each with its reason")
    command.add_argument("--allow-unexplained", action="store_true", help=f"status 0, and not {Status.UNEXPLAINED.value}, where a number is "
                         "unexplained")
    command.add_argument("--json", action="store_true", help="the numbers for other programs, as JSON")
    add_strict(command)


def run(given: argparse.Namespace) -> Status:
    """Prints the table, and the list where it is wanted."""
    with held_text() as text, held_list() as rows:
        def each(it: Number, task: str) -> None:
            if given.different and it.verdict is Verdict.EQUAL:
                return
            if given.json:
                print(json.dumps({"task": task, **number_json(it)}), file=rows)
            else:
                listed(it, task, rows)

        is_listed = given.list or given.different
        if is_listed:
            found = told(given.text, given.hz, given.strict, lambda of: Comparing(of, each))
        else:
            found = told_in_pieces(given.text, given.hz, given.strict, Comparing)
        if given.json:
            as_json(found, rows if is_listed else None, text)
            return status_of(given, found)
        head(found, text)
        for group, tally in found.tallies.items():
            if tally.kinds():
                table(group, tally, text)
        notes(found, text)
        if is_listed:
            print(f"\n{'line':>7}  {'task':<16}{'number':<26}{'kernel':>10}{'laws':>10}  {'unit':<8}{'':<22}why", file=text)
            rows.seek(0)
            text.writelines(rows)
    return status_of(given, found)


def status_of(given: argparse.Namespace, found: Comparing) -> Status:
    """Whether a number is unexplained, where that counts."""
    return Status.GOOD if given.allow_unexplained or not found.unexplained() else Status.UNEXPLAINED


def as_json(found: Comparing, rows: TextIO | None, out: TextIO) -> None:
    """All of it as one object, in whose `list` are the rows that were asked for, one a line, each of them JSON."""
    told = json.dumps(comparison_json(found), indent=1)
    if rows is None:
        print(told, file=out)
        return
    print(told.removesuffix("\n}") + ',\n "list": [', file=out)
    rows.seek(0)
    for place, row in enumerate(rows):
        out.write(("  " if place == 0 else ",\n  ") + row.rstrip("\n"))
    print("\n ]\n}", file=out)


@contextmanager
def held_list() -> Iterator[TextIO]:
    """Where the list waits for the table that stands above it."""
    with tempfile.SpooledTemporaryFile(MOST_HELD, mode="w+", encoding="utf-8", errors="surrogateescape", newline="\n") as held:
        yield held  # type: ignore[misc]


def head(found: Comparing, out: TextIO) -> None:
    """What the text is."""
    text = found.text
    strict = ", ".join(sorted(found.strict))
    print(f"{text.path}: {found.checks} checks, {found.frees} free ones, {found.estimates} estimates; disks "
          f"{', '.join(text.disks)}{f', of which {strict} strict' if strict else ''}; {text.clock.second} ticks a second", file=out)
    if text.lost:
        print(f"the kernel says that it lost {text.lost} lines", file=out)
    if found.raised:
        print(f"real-time: {', '.join(sorted(found.raised))}", file=out)


def table(group: Group, tally: Tally, out: TextIO) -> None:
    """How many numbers of each kind compare how."""
    used = [verdict for verdict in COLUMNS if verdict is not Verdict.NOT_TOLD or any(tally.of(kind)[NOT_TOLD] for kind in tally.kinds())]
    print(f"\n{group.value}: {tally.checks}" if group is not Group.PLAIN else "", file=out)
    print(f"{'number':<26}" + "".join(f"{COLUMNS[verdict]:>12}" for verdict in used) + f"{'equal, %':>10}", file=out)
    for kind in tally.kinds():
        of = dict(zip(Verdict, tally.of(kind)))
        percent = 100 * of[Verdict.EQUAL] / sum(of.values())
        print(f"{kind.value:<26}" + "".join(f"{of[verdict]:>12}" for verdict in used) + f"{percent:>10.1f}", file=out)


NOT_TOLD = list(Verdict).index(Verdict.NOT_TOLD)


def notes(found: Comparing, out: TextIO) -> None:
    """For each kind that has numbers that differ or are unexplained, the farthest one."""
    far = [it for tally in found.tallies.values() for it in tally.far()]
    if far:
        print("\nfarthest off:", file=out)
    for it in far:
        laws = str(it.low) if it.low == it.high else f"{it.low} to {it.high}"
        why = f" ({it.reason})" if it.reason else ""
        print(f"  {it.verdict.value}: {it.kind.value}, line {it.line}: kernel {it.kernel}, laws {laws} {UNITS[it.kind]}{why}".rstrip(), file=out)


def listed(it: Number, task: str, out: TextIO) -> None:
    """A number in a row."""
    row = (f"{it.line:>7}  {task:<16}{it.kind.value:<26}{it.kernel:>10}{it.laws:>10}  {UNITS[it.kind]:<8}"
           f"{it.verdict.value:<22}{it.reason}")
    print(row.rstrip(), file=out)
