"""The lines of a forecast. Counts and bounds are in pages, rates in pages a second, times in ticks."""
from __future__ import annotations

from dataclasses import dataclass, field

from journals.events import Natural


@dataclass(frozen=True)
class Every:
    """`forecast 1000`: so many ticks has an interval."""

    ticks: Natural


@dataclass(frozen=True)
class From:
    """`from 3`: the rows of an interval begin, by its number."""

    number: Natural


@dataclass(frozen=True)
class DomainRow:
    """`domain 0 0 2 19995 21067`: a domain's exact count after the interval's last step, the greatest one after any step of it, the hard limit
    that was published last, and the bound after the last step."""

    domain: Natural
    count: Natural
    most: Natural
    hard: Natural
    bound: Natural


@dataclass(frozen=True)
class ContextRow:
    """`context 0 2 2 25600 25600 25600`: fresh writes of a context's pages and completions of them in the interval, and its newest estimate."""

    context: Natural
    dirtied: Natural
    written: Natural
    bandwidth: Natural
    average: Natural
    rate_limit: Natural


@dataclass(frozen=True)
class TaskRow:
    """`task 0 2 0 0 0 0`: pages that a task wrote in the interval, its checks, the pauses above 0 that they began, the ticks of these, the
    longest."""

    task: Natural
    pages: Natural
    checks: Natural
    pauses: Natural
    ticks: Natural
    longest: Natural


@dataclass
class Rows:
    """All rows of an interval in which a step was made."""

    number: int
    domains: list[DomainRow] = field(default_factory=list)
    contexts: list[ContextRow] = field(default_factory=list)
    tasks: list[TaskRow] = field(default_factory=list)
