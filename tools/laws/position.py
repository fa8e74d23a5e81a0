"""The position polynomial and the position ratio. Pages, rates in pages a second, ratios in 1024ths."""
from __future__ import annotations

from enum import Enum
from typing import NamedTuple

from .limits import Limits, setpoint_of
from .numbers import sat_sub, towards_zero

GREATEST_RATIO = (1 << 32) - 1
GREATEST_POLYNOM = 2048
new = tuple.__new__


class Slope(Enum):
    """By which rule the context's pages bend the polynomial."""

    LINE = "the context's line"
    QUARTER = "the last quarter of the context's line: a quarter"


class Low(Enum):
    """By which rule a context of few pages raises it."""

    NONE = "at least half the weight: as it is"
    HYPERBOLA = "below half the weight: times half the weight, by the context's pages"
    EIGHT = "at most a 16th of the weight: eight times"


class Position(NamedTuple):
    """A position ratio, and what it is made of."""

    setpoint: int
    polynom: int
    weight: int
    share: int
    middle: int
    span: int
    slope: Slope | None
    bent: int
    low: Low | None
    ratio: int


def polynom(setpoint: int, dirty: int, limit: int) -> int:
    """The third power of how far a domain lies below its setpoint, from 0 to 2048."""
    x = towards_zero((setpoint - dirty) * 1024, limit - setpoint | 1)
    p = x
    for _ in range(2):
        p = p * x // 1024
    return min(max(p + 1024, 0), GREATEST_POLYNOM)


def position(limits: Limits, dirty: int, context_limit: int, context_dirty: int, average: int) -> Position:
    """The position ratio of a context in a domain, with its parts: those after the setpoint are 0 from the hard limit on."""
    thresh, _, hard = limits
    setpoint = setpoint_of(limits)
    if dirty >= hard:
        return Position(setpoint, 0, 0, 0, 0, 0, None, 0, None, 0)
    p = height = polynom(setpoint, dirty, hard)
    weight = max(min(context_limit, thresh), (hard - dirty) // 8)
    share = (weight << 16) // (thresh | 1)
    middle = setpoint * share >> 16
    span = (sat_sub(thresh, weight) + 8 * average) * share >> 16
    end = middle + span
    if context_dirty < end - span // 4:
        slope, p = Slope.LINE, p * (end - context_dirty) // (end - middle | 1)
    else:
        slope, p = Slope.QUARTER, p // 4
    bent, half, low = p, weight // 2, Low.NONE
    if context_dirty < half:
        if context_dirty > half // 8:
            low, p = Low.HYPERBOLA, p * half // context_dirty
        else:
            low, p = Low.EIGHT, p * 8
    return new(Position, (setpoint, height, weight, share, middle, span, slope, bent, low, min(p, GREATEST_RATIO)))
