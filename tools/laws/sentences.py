"""The numbers behind a decision, one line each: what it is, its value with its unit, and how it came about."""
from __future__ import annotations

from collections.abc import Iterator, Sequence
from dataclasses import dataclass

from .clock import PROFILE, Clock
from .decision import DomainRead, Kind, Rule, Task, Verdict
from .limits import freerun_of, setpoint_of
from .pauses import poll_interval
from .position import Low, Position, Slope
from .strict import own_background, own_freerun, strict_position

NAME, VALUE = 18, 20
"""Columns of a name and of a value."""

DOMAINS = ("domain 0", "the cgroup's domain")

DECISIONS = {
    Kind.FREE: "no domain is above its freerun",
    Kind.GO: "it goes on at its rate",
    Kind.EXEMPT: "the rate is 0, but the context's pages may be all error",
    Kind.WAIT: "the rate is 0, so it is to ask again after its pause",
}

STRICT_FREE = "its context is at most at its own freerun, and no domain above its hard limit"

EXCEEDED = "the context is above its threshold and the domain above its own: checks come after 8 pages"
STRICT_EXCEEDED = "the context is above its own threshold: checks come after 8 pages"


@dataclass(frozen=True)
class Asked:
    """What a decision was asked with: reads, the context's pages, average and rate limit, the task's numbers, the moment, the error,
    whether the context is one of a strict device, the clock, and the average of the pause where the rate has an older one."""

    reads: Sequence[DomainRead]
    context_dirty: int
    average: int
    ratelimit: int
    task: Task
    now: int
    error: int
    is_strict: bool = False
    clock: Clock = PROFILE
    later: int | None = None


def lines(asked: Asked, verdict: Verdict) -> Iterator[str]:
    """All of them, in the order in which the law finds them."""
    yield from strict_lines(asked, verdict) if asked.is_strict else ordinary_lines(asked, verdict)
    is_by_own = asked.is_strict and verdict.kind is Kind.FREE
    yield row("decision", verdict.kind.value, STRICT_FREE if is_by_own else DECISIONS[verdict.kind])
    yield row("left", pages(verdict.left), "which it may then dirty" if verdict.left else "none before it has asked again")
    yield row("task after", f"{pages(verdict.task.dirtied)} dirtied",
              f"of an allowance of {verdict.task.allowance}; its last pause ends at {verdict.task.ended}")
    if verdict.exceeded:
        yield row("exceeded", "yes", STRICT_EXCEEDED if asked.is_strict else EXCEEDED)


def ordinary_lines(asked: Asked, verdict: Verdict) -> Iterator[str]:
    """What the domains come to, and what follows from it."""
    for name, read in zip(DOMAINS, asked.reads):
        yield from domain_lines(name, read)
    if verdict.kind is Kind.FREE:
        for name, read in zip(DOMAINS, asked.reads):
            yield interval_line(name, read.dirty, read.limits.thresh)
        return
    for name, read, position in zip(DOMAINS, asked.reads, verdict.positions):
        yield from position_lines(name, read, asked, position)
    yield from rate_lines(asked, verdict, [position.ratio for position in verdict.positions])


def strict_lines(asked: Asked, verdict: Verdict) -> Iterator[str]:
    """What the context's own parts of the domains come to, and what follows from it."""
    for name, read in zip(DOMAINS, asked.reads):
        yield from own_lines(name, read, asked.context_dirty)
    if verdict.kind is Kind.FREE:
        for name, read in zip(DOMAINS, asked.reads):
            yield interval_line(f"the context in {name}", asked.context_dirty, read.context_limit)
        return
    positions = [strict_position(read, asked.context_dirty) for read in asked.reads]
    for name, position in zip(DOMAINS, positions):
        yield row("polynomials", f"{position.polynom} and {position.own}", f"of {name}, and of the context's own part of it")
        yield row("ratio", f"{position.ratio} of 1024", f"of {name}: {position.held.value}")
    yield from rate_lines(asked, verdict, [position.ratio for position in positions])


def interval_line(name: str, dirty: int, thresh: int) -> str:
    """How many pages may be dirtied before the next check, where the writer is free."""
    return row("poll interval", pages(poll_interval(dirty, thresh)), f"of the {thresh - dirty} up to the threshold of {name}")


def row(name: str, value: str, how: str) -> str:
    """One line."""
    return f"{name:<{NAME}}{value:<{VALUE}}{how}".rstrip()


def pages(many: int) -> str:
    """So many pages."""
    return "1 page" if many == 1 else f"{many} pages"


def ticks(many: int, clock: Clock = PROFILE) -> str:
    """So many ticks, and in milliseconds where that is another number."""
    of_clock = "1 tick" if many == 1 else f"{many} ticks"
    return of_clock if clock.second == PROFILE.second else f"{of_clock}, {clock.milliseconds(many)} ms"


def domain_lines(name: str, read: DomainRead) -> Iterator[str]:
    """Freerun and setpoint of a domain, and where it stands."""
    thresh, background, hard = read.limits
    freerun, setpoint = freerun_of(read.limits), setpoint_of(read.limits)
    place = "not above it" if read.dirty <= freerun else "above it"
    yield row("freerun", pages(freerun), f"of {name}: ({thresh} + {background}) / 2; it has {read.dirty}, {place}")
    side = "at the hard limit or above" if read.dirty >= hard else "below it" if read.dirty < setpoint else "at it" \
        if read.dirty == setpoint else "above it"
    yield row("setpoint", pages(setpoint), f"of {name}: ({freerun} + {hard}) / 2; it is {side}")


def own_lines(name: str, read: DomainRead, context_dirty: int) -> Iterator[str]:
    """The context's own part of a domain, and where the two stand."""
    own, background, freerun = read.context_limit, own_background(read), own_freerun(read)
    yield row("own threshold", pages(own), f"the context's part of the {read.limits.thresh} of {name}; it has {context_dirty}")
    place = "not above it" if context_dirty <= freerun else "above it"
    yield row("own freerun", pages(freerun), f"({own} + {background}) / 2; the context is {place}")
    yield row("hard limit", pages(read.limits.hard), f"of {name}; it has {read.dirty}")


def position_lines(name: str, read: DomainRead, asked: Asked, it: Position) -> Iterator[str]:
    """The polynomial, the context's line and the ratio."""
    if it.slope is None:
        yield row("ratio", "0 of 1024", f"of {name}: {read.dirty} pages are at its hard limit of {read.limits.hard} or above")
        return
    yield row("polynomial", f"{it.polynom} of 1024", f"of {name}: 1024 at the setpoint, and falls up to {read.limits.hard} pages")
    weight = "an eighth of what is left to the hard limit" if it.weight > min(read.context_limit, read.limits.thresh) \
        else f"the context's threshold, {read.context_limit}, which is at most the domain's" if it.weight == read.context_limit \
        else "the domain's threshold"
    yield row("context's weight", pages(it.weight), weight)
    yield row("its setpoint", pages(it.middle), f"{it.setpoint} * {it.share} / 65536; it has {asked.context_dirty}")
    yield row("its span", pages(it.span), f"({max(read.limits.thresh - it.weight, 0)} + 8 * {asked.average}) * {it.share} / 65536")
    end = it.middle + it.span
    how = f"{it.polynom} * ({end} - {asked.context_dirty}) / {it.span | 1}, by {it.slope.value}" if it.slope is Slope.LINE \
        else f"{it.polynom} / 4, in {it.slope.value.partition(':')[0]}"
    yield row("bent", f"{it.bent} of 1024", how)
    if it.low is not Low.NONE:
        assert it.low
        yield row("raised", f"{it.ratio} of 1024", f"{it.low.value}")
    yield row("ratio", f"{it.ratio} of 1024", f"of {name}")


def rate_lines(asked: Asked, it: Verdict, ratios: Sequence[int]) -> Iterator[str]:
    """Rate, period, think, the bounds of a pause, and the pause."""
    assert it.least and it.longest
    clock, ratio = asked.clock, min(ratios)
    average = asked.average if asked.later is None else asked.later
    whose = f", the smaller one, of {DOMAINS[ratios.index(ratio)]}" if len(ratios) > 1 else ""
    yield row("task rate", f"{it.rate} pages/s", f"{asked.ratelimit} * {ratio} / 1024{whose}")
    if it.rate:
        yield row("period", ticks(it.period or 0, clock), f"{clock.second} * {asked.task.dirtied} / {it.rate}")
        since = f"{asked.now} - {asked.task.ended}" if asked.task.ended else "no pause yet"
        yield row("think", ticks(it.think or 0, clock), f"since its last pause ended: {since}")
    yield row("longest pause", ticks(it.longest, clock),
              f"{asked.context_dirty} / (1 + {average} / {clock.near_eighth}) + 1, at most {clock.longest}")
    yield row("least pause", ticks(it.least.pause, clock), f"for {pages(it.least.pages)} in {ticks(it.least.ticks)}: {it.least.target.value}")
    wanted = f"{it.period} - {it.think or 0} = {it.wanted}; " if it.rate else ""
    yield row("pause", ticks(it.pause, clock), f"{wanted}{it.rule.value}")
    if it.kind in (Kind.EXEMPT, Kind.WAIT):
        yield row("error", pages(asked.error), f"a reading of {pages(asked.context_dirty)} may be off by that much")
    if it.pause and it.rule is not Rule.FREE:
        yield row("next allowance", pages(it.task.allowance), "that of the least pause")
