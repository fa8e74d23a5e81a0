"""A number that the kernel printed, beside the one by the laws.

Where inputs aren't told to the last digit, the laws give several numbers: one for each average that a line tells or its update may have
made, and each context threshold that the printed setpoint leaves open. A number that is none of them has a verdict by a reason, and a reason
stands only where the numbers bear it; else it is unexplained.
"""
from __future__ import annotations

from collections.abc import Sequence
from enum import Enum
from typing import NamedTuple


class Kind(Enum):
    """What a number is."""

    COUNT = "pages of the domain"
    FREE = "free or not"
    SETPOINT = "setpoint"
    FOLLOWING = "following limit"
    RATE = "task rate limit"
    PERIOD = "period"
    THINK = "think"
    PAUSE = "pause"
    ALLOWANCE = "next allowance"
    SAMPLE_RATE = "task rate of an estimate"
    OWN_SAMPLE_RATE = "task rate, own ratio"
    BALANCED = "balanced rate"
    RATE_LIMIT = "rate limit"
    OWN_RATE_LIMIT = "rate limit, own setpoint"
    AVERAGE = "average bandwidth"


UNITS = {
    Kind.COUNT: "pages", Kind.FREE: "", Kind.SETPOINT: "pages", Kind.FOLLOWING: "pages", Kind.RATE: "pages/s", Kind.PERIOD: "ms",
    Kind.THINK: "ms", Kind.PAUSE: "ms", Kind.ALLOWANCE: "pages", Kind.SAMPLE_RATE: "pages/s", Kind.BALANCED: "pages/s",
    Kind.RATE_LIMIT: "pages/s", Kind.AVERAGE: "pages/s", Kind.OWN_SAMPLE_RATE: "pages/s", Kind.OWN_RATE_LIMIT: "pages/s",
}


class Verdict(Enum):
    """How the two numbers compare."""

    EQUAL = "equal"
    WITHIN = "within rounding"
    BETWEEN = "between two averages"
    NOT_TOLD = "not told"
    DIFFERENT = "different"
    UNEXPLAINED = "unexplained"


class Number(NamedTuple):
    """A number of a line: the kernel's, the laws' first one, and all those from `low` to `high` that inputs leave open."""

    line: int
    kind: Kind
    kernel: int
    laws: int
    low: int
    high: int
    verdict: Verdict
    reason: str = ""


Why = tuple[Verdict, str]
"""A verdict other than equal, and its reason."""

NONE: Why = (Verdict.UNEXPLAINED, "")


def number(line: int, kind: Kind, kernel: int, candidates: Sequence[int], why: Why = NONE) -> Number:
    """Compares. The first candidate is the likeliest; the kernel's is equal where it is one of them. Else it is as `why` has it."""
    low, high = min(candidates), max(candidates)
    if kernel in candidates:
        return Number(line, kind, kernel, kernel, low, high, Verdict.EQUAL)
    return Number(line, kind, kernel, candidates[0], low, high, *why)
