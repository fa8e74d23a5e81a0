"""A summary for other programs: the numbers of the tables, by the names of their fields. What isn't told is null."""
from __future__ import annotations

from dataclasses import asdict
from typing import Any

from laws.clock import PROFILE

from .events import Bits
from .summary import DomainSummary, Summary, TaskSummary

OF_STEPS = ("greatest", "greatest_at", "bound_there", "closer_there", "least_distance", "nearest")
"""Fields of a domain that steps alone tell."""


def summary_json(summary: Summary) -> dict[str, Any]:
    """All of it. Times are in ticks, the rest in pages."""
    trace = summary.trace
    return {
        "ending": summary.ending.value if summary.ending else None, "steps": summary.steps, "folds": summary.folds,
        "latest": summary.latest, "ticks_a_second": PROFILE.second, "left": {bits.value: summary.left[bits] for bits in Bits},
        "totals": asdict(summary.totals) if summary.totals else None,
        "tasks": [{"task": number, **task_json(task)} for number, task in enumerate(summary.tasks)],
        "devices": [{"device": number, "is_strict": trace.devices[number].is_strict, "is_ageing": trace.is_ageing(number), **asdict(device)}
                    for number, device in enumerate(summary.devices)],
        "domains": [{"domain": number, **domain_json(domain, bool(summary.steps)), "bound": summary.bound(number),
                     "closer": summary.closer(number)}
                    for number, domain in enumerate(summary.domains)],
        "strict": [asdict(strict) for strict in summary.strict]}


def task_json(task: TaskSummary) -> dict[str, Any]:
    """A task's numbers."""
    return {**asdict(task), "checks": {decision.value: many for decision, many in task.checks.items()}}


def domain_json(domain: DomainSummary, has_steps: bool) -> dict[str, Any]:
    """A domain's numbers. `bound` and `closer` beside them are those at the end, by their formulas."""
    return {name: value if has_steps or name not in OF_STEPS else None for name, value in asdict(domain).items()}
