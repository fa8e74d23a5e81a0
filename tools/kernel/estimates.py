"""The numbers of an estimate's line, by the laws."""
from __future__ import annotations

from collections.abc import Iterator

from laws.clock import Clock
from laws.estimate import AGE, balanced_rate, next_average, next_ratelimit, task_rate
from laws.limits import Limits, follow, setpoint_of
from laws.position import position

from . import averages, cgroups, strict
from .checks import STRICT, ratios
from .domains import is_by_cgroup
from .joining import Estimated, Joined
from .numbers import NONE, Kind, Number, Verdict, Why, number
from .reads import limits_before, limits_of
from .searching import where
from .tracepoints import Sample

MOVED = "another disk's check moved the limit less than 200 ms before"
MOST_RATIOS = 64
"""Ratios that are tried one by one."""


def numbers_of(estimated: Estimated, clock: Clock, limit_moved: float = 0.0) -> Iterator[Number]:
    """Balanced rate, the average after the update, and task rate, rate limit and following limit where the check that made it is there.
    `limit_moved` is when an update moved the following limit before."""
    it = estimated.sample
    balanced = balanced_rate(it.task_rate, it.average, it.dirty_rate)
    yield number(it.line, Kind.BALANCED, it.balanced, [balanced])
    if estimated.after:
        yield average(estimated, clock)
    if estimated.check and estimated.check.state:
        if estimated.before:
            yield from by_domain(estimated, estimated.before, estimated.check)
            if estimated.check.is_strict:
                yield from by_own(it, estimated.before, estimated.check)
        if not estimated.is_first:
            yield following(it, estimated.check, limit_moved)


def following(it: Sample, joined: Joined, limit_moved: float) -> Number:
    """The following limit, which the check moved unless another one had done so shortly before."""
    state, check = joined.state, joined.check
    assert state
    laws = follow(state.limit, state.thresh, state.count)
    is_recent = check.limit == state.limit and 0 < it.time - limit_moved < AGE / 1000
    return number(check.line, Kind.FOLLOWING, check.limit, [laws], (Verdict.WITHIN, MOVED) if is_recent else NONE)


def by_domain(estimated: Estimated, before: Sample, joined: Joined) -> Iterator[Number]:
    """Task rate and rate limit of an estimate that a check made, from the rate limit before it, by the domain's ratio and setpoint."""
    it = estimated.sample
    if estimated.first:
        yield from by_cgroup(it, estimated.first, joined)
        return
    if is_by_cgroup(joined):
        yield machines(it, before, joined)
        yield machines_limit(it, before, joined)
        return
    rates = [task_rate(before.ratelimit, ratio) for ratio in ratios(joined)]
    yield number(it.line, Kind.SAMPLE_RATE, it.task_rate, rates, why_task(it, before, joined))
    laws = next_ratelimit(before.ratelimit, before.balanced, it.balanced, it.task_rate, joined.check.dirty < setpoint_of(limits_of(joined)))
    yield number(it.line, Kind.RATE_LIMIT, it.ratelimit, [laws], why_limit(it, before, joined))


def why_task(it: Sample, before: Sample, joined: Joined) -> Why:
    """Whether the ratio of a strict disk gives a task rate."""
    if it.task_rate not in [task_rate(before.ratelimit, ratio) for ratio in strict.ratios(joined)]:
        return NONE
    return Verdict.DIFFERENT, strict.ESTIMATE if joined.is_strict else STRICT


def why_limit(it: Sample, before: Sample, joined: Joined) -> Why:
    """Whether the setpoint of a strict disk gives a rate limit."""
    if why_task(it, before, joined) == NONE or it.ratelimit not in own_limits(it, before, joined):
        return NONE
    return Verdict.DIFFERENT, strict.ESTIMATE if joined.is_strict else STRICT


def own_limits(it: Sample, before: Sample, joined: Joined) -> list[int]:
    """The rate limit by a strict disk's own setpoint."""
    return [next_ratelimit(before.ratelimit, before.balanced, it.balanced, it.task_rate, is_below)
            for is_below in strict.is_below_own(joined)]


def by_own(it: Sample, before: Sample, joined: Joined) -> Iterator[Number]:
    """The same by the ratio and the setpoint of a strict disk, which the profile takes for no estimate."""
    rates = [task_rate(before.ratelimit, ratio) for ratio in strict.ratios(joined)]
    yield number(it.line, Kind.OWN_SAMPLE_RATE, it.task_rate, rates)
    yield number(it.line, Kind.OWN_RATE_LIMIT, it.ratelimit, own_limits(it, before, joined))


def either_side(it: Sample, before: Sample) -> list[int]:
    """The rate limits with the domain above its setpoint and below it."""
    return [next_ratelimit(before.ratelimit, before.balanced, it.balanced, it.task_rate, is_below) for is_below in (False, True)]


def machines(it: Sample, before: Sample, joined: Joined) -> Number:
    """The task rate by the machine's domain, where the check was made by its cgroup's: the disk's threshold in it isn't told."""
    limits, state, check = limits_before(joined), joined.state, joined.check
    assert state

    def rate(at: int) -> int:
        return task_rate(before.ratelimit, position(limits, state.count, at, check.context_dirty, it.average).ratio)

    found = where(it.task_rate, rate, 0, limits.thresh)
    low, high = sorted((rate(0), rate(limits.thresh)))
    why = (Verdict.NOT_TOLD, cgroups.CONTEXT) if found else NONE
    return Number(it.line, Kind.SAMPLE_RATE, it.task_rate, it.task_rate if found else high, low, high, *why)


def machines_limit(it: Sample, before: Sample, joined: Joined) -> Number:
    """The rate limit by the machine's domain, where the check was made by its cgroup's."""
    assert joined.state
    is_below = joined.state.count < setpoint_of(limits_of(joined))
    laws = next_ratelimit(before.ratelimit, before.balanced, it.balanced, it.task_rate, is_below)
    return number(it.line, Kind.RATE_LIMIT, it.ratelimit, [laws])


def by_cgroup(it: Sample, first: Sample, joined: Joined) -> Iterator[Number]:
    """The second line of an update in a cgroup, by the cgroup's own domain: its ratio is told by the rate of the check if that took it."""
    check = joined.check
    if is_by_cgroup(joined):
        rates = cgroups.task_rates(check, first.ratelimit)[:MOST_RATIOS]
        yield number(it.line, Kind.SAMPLE_RATE, it.task_rate, rates)
    else:
        least = task_rate(first.ratelimit, cgroups.ratios_of(check)[0])
        why: Why = (Verdict.NOT_TOLD, cgroups.RATIO) if it.task_rate >= least else NONE
        yield Number(it.line, Kind.SAMPLE_RATE, it.task_rate, least, least, max(it.task_rate, least), *why)
    yield number(it.line, Kind.RATE_LIMIT, it.ratelimit, either_side(it, first))


def how(found: averages.Solved) -> str:
    """The updates without a line by which an average came about."""
    if found.many > 2:
        return f"there was time for {found.many} updates without a line, which reach it with what was written"
    many = "an update" if found.many == 1 else "two updates"
    return f"{many} without a line gave it, the last from an average of {found.average} and a bandwidth of {found.bandwidth} pages/s"


def average(estimated: Estimated, clock: Clock) -> Number:
    """The average that the update makes, which the next line tells, from the bandwidth that it tells; or that of an update between both."""
    it, after = estimated.sample, estimated.after
    assert after
    if estimated.is_first:
        laws = [it.average] if after.bandwidth == it.bandwidth else [-1]
        return number(it.line, Kind.AVERAGE, after.average, laws)
    laws = [next_average(it.average, it.bandwidth, after.bandwidth)]
    why: Why = NONE
    if after.average not in laws and (found := averages.solved(estimated, clock)):
        why = (Verdict.BETWEEN, how(found))
    return number(it.line, Kind.AVERAGE, after.average, laws, why)
