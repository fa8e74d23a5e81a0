"""A summary as a text for people: tables with a line for each task, device and domain."""
from __future__ import annotations

from collections.abc import Iterable
from typing import Any

from .events import Bits, Decision
from .summary import Summary


def lines(summary: Summary) -> Iterable[str]:
    """The summary as a text for people."""
    ending = summary.ending.value if summary.ending else ""
    steps = f"{summary.steps} steps" if summary.steps else "no steps in the journal"
    yield f"ending: {ending}, {steps}, {summary.folds} folds, latest time {summary.latest}"
    yield "units: pages; time in ticks, 1000 a second"
    yield left_line(summary)
    yield from differences(summary)
    yield ""
    yield from task_table(summary)
    yield ""
    yield from device_table(summary)
    if summary.trace.ageing_devices():
        yield ""
        yield from ageing_table(summary)
    yield ""
    yield from domain_table(summary)
    if summary.strict:
        yield ""
        yield from strict_table(summary)


def left_line(summary: Summary) -> str:
    """How many pages are left."""
    left = summary.left
    dirty, writeback = left[Bits.DIRTY] + left[Bits.BOTH], left[Bits.WRITEBACK] + left[Bits.BOTH]
    return f"left: {dirty} pages dirty, {writeback} under writeback, {left[Bits.BOTH]} of them both"


def differences(summary: Summary) -> Iterable[str]:
    """Where the journal's own totals differ from its entries: no run's journal does."""
    totals = summary.totals
    fresh, done = sum(task.fresh for task in summary.tasks), sum(device.completions for device in summary.devices)
    if totals and (totals.fresh, totals.done) != (fresh, done):
        yield f"differs: the totals are {totals.fresh} and {totals.done}, and the entries {fresh} and {done}"


def task_table(summary: Summary) -> Iterable[str]:
    """Writes in pages, pauses in ticks."""
    head = ["task", "fresh", "already", "checks", *(each.value for each in Decision), "pauses", "longest pause", "paused"]
    rows = [[number, task.fresh, task.already, sum(task.checks.values()), *task.checks.values(), task.pauses,
             task.longest_pause, task.paused] for number, task in enumerate(summary.tasks)]
    return table(head, rows)


def device_table(summary: Summary) -> Iterable[str]:
    """Flights in ticks."""
    head = ["device", "batches", "pages", "longest flight", "completions", "faults", "given back", "absorbed", "estimates"]
    rows = [[number, device.batches, device.pages, device.longest_flight, device.completions, device.faults, device.given_back,
             device.absorbed, device.estimates] for number, device in enumerate(summary.devices)]
    return table(head, rows)


def ageing_table(summary: Summary) -> Iterable[str]:
    """Inodes that flushers noticed, and that they took for their age or else from their lists. Lateness in ticks."""
    head = ["ageing device", "noticed", "taken for age", "latest by", "taken else"]
    rows = [[number, device.noticed, device.aged, device.latest_age, device.taken] for number, device in enumerate(summary.devices)
            if summary.trace.is_ageing(number)]
    return table(head, rows)


def domain_table(summary: Summary) -> Iterable[str]:
    """Counts and distances in pages. Without steps the exact count isn't told, and what checks read stands there."""
    publications = [[domain.publications, domain.periods] for domain in summary.domains]
    if summary.steps:
        head = ["domain", "greatest count", "at step", "bound there", "closer bound", "least distance", "at step", "new limits", "new periods"]
        rows: list[list[Any]] = [
            [number, domain.greatest, domain.greatest_at, domain.bound_there, domain.closer_there, domain.least_distance, domain.nearest]
            for number, domain in enumerate(summary.domains)]
    else:
        head = ["domain", "greatest count read", "bound computed", "closer bound", "new limits", "new periods"]
        rows = [[number, "none" if domain.greatest_read is None else domain.greatest_read, summary.bound(number), summary.closer(number)]
                for number, domain in enumerate(summary.domains)]
    return table(head, [row + more for row, more in zip(rows, publications)])


def strict_table(summary: Summary) -> Iterable[str]:
    """Counts and distances in pages."""
    rows = [[each.context, each.most, each.bound, each.bound - each.most] for each in summary.strict]
    return table(["strict context", "greatest count", "bound", "least distance"], rows)


def table(head: list[str], rows: list[list[Any]]) -> Iterable[str]:
    """Columns that stand to the right, two spaces between them."""
    cells = [head, *([str(cell) for cell in row] for row in rows)]
    widths = [max(map(len, column)) for column in zip(*cells)]
    for row in cells:
        yield "  ".join(cell.rjust(width) for cell, width in zip(row, widths))
