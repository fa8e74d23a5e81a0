"""What `compare` and `explain` find, for other programs. Times are in milliseconds unless they are named otherwise, the rest in pages and
pages a second. What isn't told is null."""
from __future__ import annotations

from typing import Any

from laws.verdict_json import verdict_json

from .causes import sentence, shorter
from .comparing import Comparing, Tally
from .explaining import Explained, Explaining
from .found import Found
from .numbers import UNITS, Number, Verdict
from .reading import Text

NOT_PRINTED = ("decision", "left", "task", "error", "exceeded")
"""Numbers of a decision that stand for nothing here."""


def text_json(text: Text) -> dict[str, Any]:
    """What the text is."""
    return {"text": text.path, "ticks_a_second": text.clock.second, "disks": list(text.disks), "lines_lost": text.lost}


def comparison_json(found: Comparing) -> dict[str, Any]:
    """How many numbers of each kind compare how, and for each kind those farthest off that differ or are unexplained."""
    return {
        **text_json(found.text), "checks": found.checks, "free": found.frees, "estimates": found.estimates, "strict": sorted(found.strict),
        "real_time": sorted(found.raised), "unexplained": found.unexplained(),
        "groups": [{"group": group.value, "checks": tally.checks, "numbers": numbers_json(tally)}
                   for group, tally in found.tallies.items() if tally.kinds()],
        "farthest": [number_json(it) for tally in found.tallies.values() for it in tally.farthest.values()]}


def numbers_json(tally: Tally) -> list[dict[str, Any]]:
    """A row of the table each."""
    return [{"number": kind.value, **{verdict.value: many for verdict, many in zip(Verdict, tally.of(kind))}} for kind in tally.kinds()]


def number_json(it: Number) -> dict[str, Any]:
    """A number with both values."""
    return {"line": it.line, "number": it.kind.value, "unit": UNITS[it.kind] or None, "kernel": it.kernel, "laws": it.laws, "least": it.low,
            "greatest": it.high, "verdict": it.verdict.value, "reason": it.reason or None}


def causes_json(found: Explaining) -> dict[str, Any]:
    """The pauses of each task by their causes, those of the longest time first."""
    sums = sorted(found.sums.items(), key=lambda pair: -pair[1].paused)
    return {
        **text_json(found.text), "checks": found.checks, "seconds": round(found.end - found.begin, 6),
        "causes": [{"task": task, "cause": cause.value, "pauses": it.many, "paused": it.paused, "longest": it.longest, "line": it.line}
                   for (task, cause), it in sums]}


def explained_json(one: Explained) -> dict[str, Any]:
    """A check with every number, those of its decision by the names that `wb explain --json` has."""
    check, at = one.joined.check, one.found
    return {
        "line": check.line, "task": check.task, "disk": check.disk, "second": check.time, "pause": max(check.pause, 0),
        "cause": one.cause.value, "sentence": sentence(one.joined, at), "decided_by": at.by.value if at else None,
        "is_exact": at.is_exact if at else None, "dirtied": check.dirtied, "think": check.think, "period": check.period,
        "decision": decision_json(at) if at else None,
        "half_as_long": [{"pause": at.clock.milliseconds(it.pause), "by": it.what} for it in shorter(at)] if at else None}


def decision_json(found: Found) -> dict[str, Any]:
    """The decision, without what a kernel prints nothing of."""
    told = verdict_json(found.asked(), found.verdict())
    return {name: value for name, value in told.items() if name not in NOT_PRINTED}
