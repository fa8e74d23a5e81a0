"""The numbers of a check, by the laws, from what is printed around it.

Most numbers of a text are equal, and `equal_ones` finds that at once. What it doesn't is compared one by one, each with its reasons.
"""
from __future__ import annotations

from collections.abc import Callable, Iterator

from laws.clock import Clock
from laws.decision import LATE
from laws.limits import Limits, freerun_of
from laws.pauses import Least, max_pause, min_pause, poll_interval
from laws.position import position

from . import averages, cgroups, strict
from .domains import FOLD, is_by_cgroup, printed_setpoint
from .joining import Free, Joined
from .numbers import NONE, Kind, Number, Verdict, Why, number
from .reads import context_limits, limits_before, reads_of
from .searching import grid, where
from .tracepoints import Balance, State

GREATEST_AVERAGE = 1 << 24
"""Pages a second: 64 GiB."""

STRICT = "the law of strict disks gives it: --strict names the disk"
TICK = "a tick went by between the decision and its line"
TIMES = "times of two lines tell ticks up to one"
BETWEEN = "an average between the two that were told gives it: it was updated without a line"
LATER = "an average that updates reach after the last line gives it"
START = "its task's first check made no pause: from then on the kernel counts from its own start, of which no line tells the tick"
COUNTERS = f"within what a CPU's counter adds at once, {FOLD} pages"


def of_free(free: Free) -> Number | None:
    """Whether a writer that was free is so by the laws, where the state that it read tells that."""
    if free.is_strict:
        return strict.of_free_state(free.state)
    state = free.state
    limits = Limits(state.thresh, state.background, state.thresh)
    why: Why = (Verdict.WITHIN, COUNTERS) if state.count - FOLD <= freerun_of(limits) else (Verdict.UNEXPLAINED, "")
    return number(state.line, Kind.FREE, 1, [int(state.count <= freerun_of(limits))], why)


def ratios(joined: Joined) -> list[int]:
    """The position ratios that the inputs leave open, the likeliest first: none where no line tells an average."""
    return [position(*read, joined.check.context_dirty, average).ratio
            for average in averages.of_rate(joined) for read in reads_of(joined)]


def numbers_of(joined: Joined, clock: Clock, but: int = 0) -> Iterator[Number]:
    """Each number of a check that can be had, but those of a set that `equal_ones` answered."""
    is_by_own = joined.check.is_of_cgroup and is_by_cgroup(joined)
    own = cgroups.rate(joined) if is_by_own else None
    is_own_domain = is_by_own and (own is None or own.verdict is not Verdict.UNEXPLAINED)
    for place, (kind, of) in enumerate(KINDS):
        if not but >> place & 1:
            found = own if own and kind is Kind.RATE else of(joined, clock, is_own_domain)
            if found is not None:
                yield found


def free_or_not(joined: Joined, _clock: Clock, is_own_domain: bool) -> Number | None:
    """Whether the writer of a check is free by the laws: it isn't, as the check has a line."""
    check, state = joined.check, joined.state
    if state is None:
        return None
    if joined.is_strict:
        return strict.of_check(joined)
    freerun = freerun_of(Limits(state.thresh, state.background, state.thresh))
    why: Why = (Verdict.UNEXPLAINED, "")
    if is_own_domain:
        why = (Verdict.NOT_TOLD, cgroups.DOMAIN)
    elif check.rate in strict.rates(joined):
        why = (Verdict.DIFFERENT, STRICT)
    elif state.count + FOLD > freerun:
        why = (Verdict.WITHIN, COUNTERS)
    return number(state.line, Kind.FREE, 0, [int(state.count <= freerun)], why)


def count(joined: Joined, _clock: Clock, is_own_domain: bool) -> Number | None:
    """Pages of the domain: the two lines read the machine's counters at two moments."""
    check, state = joined.check, joined.state
    if state is None:
        return None
    why: Why = (Verdict.NOT_TOLD, cgroups.PAGES) if is_own_domain else \
        (Verdict.WITHIN, COUNTERS) if abs(check.dirty - state.count) <= FOLD else (Verdict.UNEXPLAINED, "")
    return number(check.line, Kind.COUNT, check.dirty, [state.count], why)


def setpoint(joined: Joined, _clock: Clock, is_own_domain: bool) -> Number | None:
    """The setpoint, from the thresholds of the state and the limit of the check: nothing of it is rounded otherwise."""
    check, state = joined.check, joined.state
    if state is None:
        return None
    laws = printed_setpoint(check.limit, state.thresh, state.background)
    why: Why = (Verdict.NOT_TOLD, cgroups.SETPOINT) if is_own_domain else (Verdict.UNEXPLAINED, "")
    return number(check.line, Kind.SETPOINT, check.setpoint, [laws], why)


def rate(joined: Joined, clock: Clock, is_own_domain: bool) -> Number | None:
    """The task rate limit."""
    check = joined.check
    if joined.state is None:
        return None
    if joined.is_strict:
        return number(check.line, Kind.RATE, check.rate, strict.rates(joined), (Verdict.UNEXPLAINED, strict.hint(joined)))
    if is_own_domain:
        return None
    rates = [check.ratelimit * ratio >> 10 for ratio in ratios(joined)]
    if not rates:
        return None
    return number(check.line, Kind.RATE, check.rate, rates, (Verdict.EQUAL, "") if check.rate in rates else why_rate(joined, clock))


def why_rate(joined: Joined, clock: Clock) -> Why:
    """Whether an average that no line tells gives a rate, or the law of strict disks does. Else which input would give it."""
    check, limits = joined.check, limits_before(joined)
    if check.rate in strict.rates(joined):
        return Verdict.DIFFERENT, STRICT
    open_limits = context_limits(check, limits.thresh)

    def rate_by(average: int, at: int) -> int:
        return check.ratelimit * position(limits, check.dirty, at, check.context_dirty, average).ratio >> 10

    open_averages = range(0) if joined.is_own else averages.between(joined, clock)
    for at in {open_limits[0], open_limits[-1]}:
        if len(open_averages) and where(check.rate, lambda average, at=at: rate_by(average, at), open_averages[0], open_averages[-1]):
            return Verdict.BETWEEN, BETWEEN if joined.after else LATER
    told = " and ".join(str(average) for average in averages.of_rate(joined))
    for at in {open_limits[0], open_limits[-1]}:
        if found := where(check.rate, lambda average, at=at: rate_by(average, at), 1, GREATEST_AVERAGE):
            return Verdict.UNEXPLAINED, f"it would take an average of {span_of(found)} pages/s, lines tell {told}"
    return Verdict.UNEXPLAINED, "no average gives it"


def span_of(found: range) -> str:
    """Such inputs in words."""
    return str(found[0]) if len(found) == 1 else f"{found[0]} to {found[-1]}"


def bounds_by(check: Balance, average: int, clock: Clock) -> tuple[int, Least]:
    """The longest pause of a check, and its least, by an average."""
    longest = max_pause(check.context_dirty, average, clock)
    return longest, min_pause(longest, check.rate, average, check.ratelimit, clock)


def all_bounds(joined: Joined, clock: Clock) -> list[tuple[int, Least]]:
    """The same by each average that the pause may have been found by, the likelier first."""
    if joined.bounds is None:
        joined.bounds = [bounds_by(joined.check, average, clock) for average in averages.of_pause(joined)]
    return joined.bounds


def open_bounds(joined: Joined, clock: Clock) -> Iterator[tuple[int, Least]]:
    """The same by averages between two updates."""
    for average in grid(averages.between(joined, clock), clock.near_eighth):
        yield bounds_by(joined.check, average, clock)


def why_bounds(joined: Joined, clock: Clock, of: Callable[[int, Least], int], kernel: int) -> Why:
    """Whether a number that follows from the bounds of a pause is that of an average between two updates."""
    if any(of(*bounds) == kernel for bounds in open_bounds(joined, clock)):
        return Verdict.BETWEEN, BETWEEN if joined.after else LATER
    return Verdict.UNEXPLAINED, ""


def compared(joined: Joined, clock: Clock, kind: Kind, kernel: int, of: Callable[[int, Least], int]) -> Number | None:
    """A number that follows from the bounds of a pause."""
    bounds = all_bounds(joined, clock)
    if not bounds:
        return None
    laws = [of(*it) for it in bounds]
    return number(joined.check.line, kind, kernel, laws, (Verdict.EQUAL, "") if kernel in laws else
                  why_bounds(joined, clock, of, kernel))


def period(joined: Joined, clock: Clock, _is_own_domain: bool) -> Number | None:
    """The period: the pages dirtied at the rate, or where that is 0 the longest pause."""
    check = joined.check
    if check.rate:
        return number(check.line, Kind.PERIOD, check.period, [clock.milliseconds(clock.second * check.dirtied // check.rate)])
    return compared(joined, clock, Kind.PERIOD, check.period, lambda longest, _: clock.milliseconds(longest))


def pause(joined: Joined, clock: Clock, _is_own_domain: bool) -> Number | None:
    """The pause."""
    check = joined.check
    kernel = max(check.pause, 0)
    wanted = wanted_of(check, clock)

    def after(ticks: int) -> Callable[[int, Least], int]:
        return lambda longest, least: clock.milliseconds(pause_of(check.rate, ticks, longest, least))

    found = compared(joined, clock, Kind.PAUSE, kernel, after(wanted))
    if found is not None and found.verdict is not Verdict.EQUAL:
        later = [after(wanted + 1)(*it) for it in all_bounds(joined, clock)]
        if kernel in later:
            return found._replace(low=min(found.low, *later), high=max(found.high, *later), verdict=Verdict.WITHIN, reason=TICK)
        if found.verdict is Verdict.UNEXPLAINED and why_bounds(joined, clock, after(wanted + 1), kernel)[0] is Verdict.BETWEEN:
            return found._replace(verdict=Verdict.BETWEEN, reason=f"{BETWEEN if joined.after else LATER}, and {TICK}")
    return found


def wanted_of(check: Balance, clock: Clock) -> int:
    """What of its period a writer has yet to wait, in ticks."""
    return clock.ticks[check.period] - clock.ticks[check.think]


def pause_of(rate: int, wanted: int, longest: int, least: Least) -> int:
    """The pause, in ticks."""
    if not rate:
        return longest
    return 0 if wanted < least.pause else min(wanted, longest)


def allowance(joined: Joined, clock: Clock, is_own_domain: bool) -> Number | None:
    """The allowance that the task's check before left, or a free one since."""
    check, previous = joined.check, joined.previous
    if previous is None:
        return None
    if joined.free is not None:
        return after_free(joined, joined.free, is_own_domain)
    found = compared(previous, clock, Kind.ALLOWANCE, check.allowance, lambda _, least: allowance_after(previous.check, least, clock))
    return found and found._replace(line=check.line)


def after_free(joined: Joined, last: State, is_own_domain: bool) -> Number | None:
    """The allowance that a free check left, which read this state."""
    check = joined.check
    if joined.is_strict:
        laws = strict.poll_intervals(joined, last)
        if not laws:
            return None
        is_open = check.allowance in strict.open_intervals(joined)
        return number(check.line, Kind.ALLOWANCE, check.allowance, laws, (Verdict.NOT_TOLD, strict.PAGES) if is_open else NONE)
    laws = [poll_interval(last.count, last.thresh)]
    why: Why = (Verdict.UNEXPLAINED, "")
    if check.allowance in strict.open_intervals(joined) and check.rate in strict.rates(joined):
        why = (Verdict.DIFFERENT, STRICT)
    elif check.allowance in (poll_interval(last.count + way, last.thresh) for way in (-FOLD, FOLD)):
        why = (Verdict.WITHIN, COUNTERS)
    elif check.is_of_cgroup and check.allowance < laws[0] and not check.allowance & check.allowance - 1:
        why = (Verdict.NOT_TOLD, cgroups.INTERVAL)
    return number(check.line, Kind.ALLOWANCE, check.allowance, laws, why)


def allowance_after(check: Balance, least: Least, clock: Clock) -> int:
    """The allowance after a check with such a least pause."""
    if check.pause > 0:
        return least.pages
    if wanted_of(check, clock) >= -LATE * clock.second // 1000 and not check.period and check.allowance <= check.dirtied:
        return check.allowance + check.dirtied
    return check.allowance


def think(joined: Joined, clock: Clock, _is_own_domain: bool) -> Number | None:
    """How long a task has run since its last pause, if it has had one."""
    check, previous = joined.check, joined.previous
    if previous is None:
        return None
    if joined.free is not None:
        return span(check, joined.free.time, 0, clock)
    before = previous.check
    if check.think == before.think == before.period == 0:
        return None
    found = span(check, before.time, ended_after(before, clock), clock)
    if found.verdict is Verdict.UNEXPLAINED and is_since_start(check, before, clock):
        return found._replace(verdict=Verdict.NOT_TOLD, reason=START)
    return found


def is_since_start(check: Balance, before: Balance, clock: Clock) -> bool:
    """Whether a task's time is counted from tick 0 of the kernel, which adds the period of a check without a pause to the moment of the last
    one, 0 where there was none. A kernel of 64 bits begins to count five minutes before 2^32."""
    if before.think or before.pause > 0 or not before.period:
        return False
    ticks = clock.ticks[check.think] + clock.ticks[before.period] - FIRST_TICK + EARLY * clock.second
    return abs(ticks / clock.second - check.time) <= START_ERROR + check.time / START_PART


FIRST_TICK, EARLY = 1 << 32, 300
START_ERROR, START_PART = 2, 1000
"""Seconds between the start of both clocks, and by which part the times of lines go otherwise than ticks."""


def ended_after(check: Balance, clock: Clock) -> int:
    """When the last pause counts as ended after a check, in ticks from the check."""
    ticks = clock.ticks
    period, think, pause = ticks[check.period], ticks[check.think], ticks[check.pause]
    if pause > 0:
        wanted = period - think
        return pause + (min(wanted - pause, pause) if check.rate and wanted > pause else 0)
    if period - think < -LATE * clock.second // 1000:
        return 0
    return period - think


def span(check: Balance, since: float, ended: int, clock: Clock) -> Number:
    """How long a task has run since its last pause. Times of two lines tell ticks up to one."""
    ticks = (check.time - since) * clock.second
    low = int(ticks // 1) - ended
    laws, *bounds = (clock.milliseconds(it) for it in (round(ticks) - ended, low, low + 1))
    verdict = Verdict.EQUAL if check.think == laws else Verdict.WITHIN if check.think in bounds else Verdict.UNEXPLAINED
    return Number(check.line, Kind.THINK, check.think, laws, *bounds, verdict, TIMES if verdict is Verdict.WITHIN else "")


KINDS = ((Kind.FREE, free_or_not), (Kind.COUNT, count), (Kind.SETPOINT, setpoint), (Kind.RATE, rate), (Kind.PERIOD, period),
         (Kind.PAUSE, pause), (Kind.ALLOWANCE, allowance), (Kind.THINK, think))
"""The numbers of a check, in this order."""

PLACES = {kind: place for place, (kind, _) in enumerate(KINDS)}
