"""A decision with its numbers for other programs, by the names of their fields. What wasn't needed is null."""
from __future__ import annotations

from enum import Enum
from typing import Any

from .decision import DomainRead, Verdict
from .limits import freerun_of, setpoint_of
from .sentences import Asked
from .strict import own_freerun, strict_position


def verdict_json(asked: Asked, verdict: Verdict) -> dict[str, Any]:
    """All of it. Pages, ticks, pages a second, ratios in 1024ths; a rule is the sentence that `explain` prints."""
    return {
        "decision": verdict.kind.value, "is_strict": asked.is_strict, "pause": verdict.pause, "left": verdict.left,
        "exceeded": verdict.exceeded, "rule": verdict.rule.value, "task": verdict.task._asdict(), "ratio": verdict.ratio,
        "rate": verdict.rate, "longest": verdict.longest, "least": plain(verdict.least), "period": verdict.period, "think": verdict.think,
        "wanted": verdict.wanted, "error": asked.error,
        "domains": [domain_json(asked, verdict, number, read) for number, read in enumerate(asked.reads)]}


def domain_json(asked: Asked, verdict: Verdict, number: int, read: DomainRead) -> dict[str, Any]:
    """A domain's setpoint and freerun, and the context's position in it; on a strict device by its own part."""
    told = {"freerun": freerun_of(read.limits), "setpoint": setpoint_of(read.limits), "pages": read.dirty, **read.limits._asdict(),
            "context_threshold": read.context_limit}
    if asked.is_strict:
        position = strict_position(read, asked.context_dirty) if verdict.ratio is not None else None
        return {**told, "own_freerun": own_freerun(read), "position": plain(position)}
    return {**told, "position": plain(verdict.positions[number]) if verdict.positions else None}


def plain(value: Any) -> Any:
    """The fields of a tuple with names, in which an enum is its words."""
    if value is None:
        return None
    return {name: of.value if isinstance(of, Enum) else of for name, of in value._asdict().items()}
