"""`wb kernel explain`: why writers paused, and every number behind one pause."""
from __future__ import annotations

import argparse
import json
from collections.abc import Iterator
from dataclasses import replace
from typing import TextIO

from laws.sentences import NAME, lines, row, ticks
from program.errors import OtherWords
from program.output import held_text
from program.statuses import Status

from ..as_json import causes_json, explained_json
from ..causes import period_lines, sentence, shorter
from ..explaining import Explained, Explaining, Sum, Wish
from ..found import By, told_lines
from ..tracepoints import Balance
from ..whole import told_in_pieces
from .texts import add_text

LEFT_OUT = ("decision", "left", "task after", "error", "exceeded")
"""Rows of a decision that the kernel prints nothing of, or that the cause says better."""

DOMAINS = {By.MACHINE: "the machine's domain", By.STRICT: "the machine's domain", By.CGROUP: "the cgroup's domain"}


def add(command: argparse.ArgumentParser) -> None:
    """A text, and which check of it."""
    add_text(command, is_last=True)
    command.add_argument("line", metavar="LINE", nargs="?", type=int, help="the check at this line of the text")
    command.add_argument("--longest", metavar="N", nargs="?", const="1", help="the longest pauses, so many (1)")
    command.add_argument("--task", metavar="NAME", default="", help="of this task alone, with its number or without, and its longest pause")
    command.add_argument("--json", action="store_true", help="the numbers for other programs, as JSON")


def run(given: argparse.Namespace) -> Status:
    """Prints the table of causes, or the numbers of checks."""
    settle(given)
    wish = Wish(given.line or 0, given.longest or 1, given.task)
    found = told_in_pieces(given.text, given.hz, (), lambda of: Explaining(of, wish))
    if wish.task and not any(found.is_wanted(task) for task in found.tasks):
        raise OtherWords(f"--task {wish.task}: no check is of that task, there are {', '.join(sorted(found.tasks))}")
    with held_text() as text:
        if given.json:
            kept = [at_line(found)] if wish.line else found.longest()
            causes = {} if wish.line else causes_json(found)
            print(json.dumps({**causes, "explained": [explained_json(one) for one in kept]}, indent=1), file=text)
            return Status.GOOD
        if wish.line:
            explain(found, at_line(found), text)
            return Status.GOOD
        if given.longest is None:
            table(found, text)
        if given.longest is None and not wish.task:
            for one in found.longest():
                check = one.joined.check
                print(f"\nthe longest, line {check.line}: {sentence(one.joined, one.found)}\n"
                      f"its numbers: tools/wb kernel explain {given.text} {check.line}", file=text)
            return Status.GOOD
        for place, one in enumerate(found.longest()):
            if place or given.longest is None:
                print(file=text)
            explain(found, one, text)
        if not found.kept:
            print("no pause", file=text)
    return Status.GOOD


def settle(given: argparse.Namespace) -> None:
    """Which of the words is which: after `--longest` the text may stand where the number is left out."""
    if given.longest is not None and not given.longest.isdecimal():
        if given.text is not None:
            raise OtherWords(f"--longest {given.longest}: a number is wanted")
        given.text, given.longest = given.longest, "1"
    given.longest = int(given.longest) if given.longest is not None else None
    if given.text is None:
        raise OtherWords("TEXT is missing")
    if given.longest == 0 or (given.line is not None and given.line < 1):
        raise OtherWords("LINE and N are at least 1")
    if given.line is not None and (given.longest is not None or given.task):
        raise OtherWords("LINE is given alone, without --longest and --task")


def at_line(found: Explaining) -> Explained:
    """The check at the line that was asked for."""
    if found.at_line:
        return found.at_line
    after = f"; the next one is at line {found.next_line}" if found.next_line else "; none follows"
    raise OtherWords(f"line {found.wish.line} is of no check of a writer that isn't free{after}")


def table(found: Explaining, out: TextIO) -> None:
    """Pauses and paused time by task and cause."""
    paused = sum(it.paused for it in found.sums.values())
    print(f"{found.text.path}: {found.checks} checks in {found.end - found.begin:.1f} s, {sum(it.many for it in found.sums.values())} pauses, "
          f"{paused / 1000:.2f} s paused; disks {', '.join(found.text.disks)}; {found.text.clock.second} ticks a second\n", file=out)
    print(f"{'task':<18}{'cause':<34}{'pauses':>8}{'paused, s':>11}{'of it, %':>10}{'longest, ms':>13}{'line':>9}", file=out)
    tasks = sorted(dict.fromkeys(task for task, _ in found.sums), key=lambda task: -sum(it.paused for (of, _), it in found.sums.items() if of == task))
    for task in tasks:
        of_task = sorted(((cause, it) for (of, cause), it in found.sums.items() if of == task), key=lambda pair: -pair[1].paused)
        whole = sum(it.paused for _, it in of_task)
        for cause, it in of_task:
            print(cells(task, cause.value, it, whole), file=out)
    if len(tasks) > 1:
        print(file=out)
        for cause in sorted(dict.fromkeys(cause for _, cause in found.sums), key=lambda cause: -all_of(found, cause).paused):
            print(cells("all", cause.value, all_of(found, cause), paused), file=out)


def cells(task: str, cause: str, it: Sum, whole: int) -> str:
    """A row of the table."""
    return (f"{task:<18}{cause:<34}{it.many:>8}{it.paused / 1000:>11.2f}{100 * it.paused / max(whole, 1):>10.1f}{it.longest:>13}"
            f"{it.line:>9}")


def all_of(found: Explaining, cause: object) -> Sum:
    """The pauses of all tasks by a cause."""
    whole = Sum()
    for (_, of), it in found.sums.items():
        if of is cause:
            whole.many, whole.paused = whole.many + it.many, whole.paused + it.paused
            if it.longest > whole.longest:
                whole.longest, whole.line = it.longest, it.line
    return whole


def explain(found: Explaining, one: Explained, out: TextIO) -> None:
    """A check with every number."""
    for line in explained(found, one):
        print(line, file=out)


def explained(found: Explaining, one: Explained) -> Iterator[str]:
    """The lines of that."""
    check, at = one.joined.check, one.found
    yield f"{found.text.path}, line {check.line}: {check.task} on disk {check.disk}, at {check.time:.6f} s"
    paused = f"a pause of {check.pause} ms" if check.pause > 0 else "no pause"
    yield f"{paused}: {one.cause.value}"
    yield sentence(one.joined, at)
    if at is None:
        return
    yield ""
    yield f"in the text (decided by {at.by.value}{' of a real-time task' if one.joined.is_raised and at.by is By.MACHINE else ''}):"
    yield from told_lines(at)
    yield ""
    yield "by the laws:"
    verdict = at.verdict()
    for line in lines(replace(at.asked(), later=at.later), verdict):
        name = line[:NAME].strip()
        if name == "think":
            yield row("think", ticks(verdict.think or 0, at.clock), f"line {check.line}: think={check.think}")
        elif name not in LEFT_OUT:
            yield line.replace("domain 0", DOMAINS[at.by]) + ("" if (name, at.by) == ("setpoint", By.CGROUP) else printed(name, check))
    if parts := list(period_lines(at)):
        yield ""
        yield "where the period comes from:"
        yield from parts
    if shorter_ones := list(shorter(at)):
        yield ""
        yield "half as long or less, by each of these alone:"
        for it in shorter_ones:
            yield row(ticks(it.pause, at.clock) if it.pause else "no pause", "", "").ljust(NAME) + it.what


def printed(name: str, check: Balance) -> str:
    """What the kernel prints of a row, where it does."""
    told = {"setpoint": f"setpoint={check.setpoint}", "task rate": f"task_ratelimit={4 * check.rate}, four to a page",
            "period": f"period={check.period}", "pause": f"pause={check.pause}"}
    return f" [{told[name]}]" if name in told else ""
