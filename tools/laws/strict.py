"""The rule for the contexts of a strict device, of which each is held to its own part of the threshold. Pages, and ratios in 1024ths."""
from __future__ import annotations

from collections.abc import Sequence
from enum import Enum
from typing import NamedTuple

from .clock import PROFILE, Clock
from .counters import error_of
from .decision import DomainRead, Task, Terms, Verdict, decide, finish
from .limits import setpoint_of
from .pauses import poll_interval
from .position import GREATEST_POLYNOM, polynom

FEW = 8
"""Pages: a context with fewer is slowed down by the domain alone."""


class Held(Enum):
    """By which rule a context of a strict device gets its ratio."""

    AT_HARD = "the domain is at its hard limit or above: none"
    FEW = "fewer than 8 pages: twice the domain's polynomial"
    AT_OWN = "at its own threshold or above: none"
    NO_MIDDLE = "its own freerun is 0 or its own threshold: none"
    BY_OWN = "its own polynomial, which is the smaller one"
    BY_DOMAIN = "the domain's polynomial, which is the smaller one"


class StrictPosition(NamedTuple):
    """A position ratio of a context of a strict device, by which rule, the polynomial of the domain and that of the context."""

    ratio: int
    held: Held
    polynom: int = 0
    own: int = 0


def own_background(read: DomainRead) -> int:
    """The context's part of the domain's background threshold."""
    return read.context_limit * read.limits.background // read.limits.thresh if read.limits.thresh else 0


def own_freerun(read: DomainRead) -> int:
    """Up to here a context of a strict device runs free, and here its own polynomial is 1024."""
    return (read.context_limit + own_background(read)) // 2


def is_over_own(reading: int, read: DomainRead) -> bool:
    """Whether a context has more pages than its part of the background threshold."""
    return reading > own_background(read)


def strict_position(read: DomainRead, context_dirty: int) -> StrictPosition:
    """The position ratio of a context of a strict device in a domain."""
    limits, own_limit, middle = read.limits, read.context_limit, own_freerun(read)
    if read.dirty >= limits.hard:
        return StrictPosition(0, Held.AT_HARD)
    of_domain = polynom(setpoint_of(limits), read.dirty, limits.hard)
    if context_dirty < FEW:
        return StrictPosition(min(2 * of_domain, GREATEST_POLYNOM), Held.FEW, of_domain)
    if context_dirty >= own_limit:
        return StrictPosition(0, Held.AT_OWN, of_domain)
    if middle in (0, own_limit):
        return StrictPosition(0, Held.NO_MIDDLE, of_domain)
    own = polynom(middle, context_dirty, own_limit)
    return StrictPosition(min(of_domain, own), Held.BY_OWN if own < of_domain else Held.BY_DOMAIN, of_domain, own)


def strict_terms(reads: Sequence[DomainRead], context_dirty: int) -> Terms:
    """Free by the context's own part in each domain, where none is above its hard limit; else the smaller ratio."""
    return Terms(
        all(context_dirty <= own_freerun(read) and read.dirty <= read.limits.hard for read in reads),
        min(poll_interval(context_dirty, read.context_limit) for read in reads),
        min(strict_position(read, context_dirty).ratio for read in reads),
        any(context_dirty > read.context_limit for read in reads),
    )


def strict_decide(reads: Sequence[DomainRead], context_dirty: int, average: int, ratelimit: int, task: Task, now: int, error: int,
                  cap: int, clock: Clock = PROFILE) -> Verdict:
    """The decision of a check in a context of a strict device."""
    return finish(strict_terms(reads, context_dirty), context_dirty, average, ratelimit, task, now, error, cap, clock)


def decide_for(is_strict: bool, reads: Sequence[DomainRead], context_dirty: int, average: int, ratelimit: int, task: Task, now: int,
               error: int, cap: int, clock: Clock = PROFILE) -> Verdict:
    """The decision of a check, by the rule for its device."""
    rule = strict_decide if is_strict else decide
    return rule(reads, context_dirty, average, ratelimit, task, now, error, cap, clock)


def strict_bound(most: int, cpus: int, writers: int, cap: int) -> int:
    """The bound of a context of a strict device, of whose thresholds that checks used `most` is the greatest."""
    error = error_of(cpus)
    return max(most, FEW, error) + error + writers * cap
