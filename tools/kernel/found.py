"""What decided a check: by which rule, from which numbers, and where in the text each of these stands."""
from __future__ import annotations

from collections.abc import Iterator
from dataclasses import dataclass
from enum import Enum

from laws.clock import Clock
from laws.decision import DomainRead, Kind, Task, Terms, Verdict, finish
from laws.limits import Limits, freerun_of
from laws.position import position
from laws.sentences import Asked, pages
from laws.strict import decide_for

from . import averages, cgroups, strict
from .domains import is_by_cgroup
from .joining import Joined
from .reads import context_limits, reads_of
from .searching import between

ENDED = 1_000_000
"""The tick at which the last pause ended: only how long ago that was counts."""

NO_CAP = 1 << 40
ROW = "{:<18}{:<20}{}"


class By(Enum):
    """By which rule a check was decided."""

    MACHINE = "the machine's domain"
    CGROUP = "its cgroup's own domain"
    STRICT = "the law of strict disks"


@dataclass(frozen=True)
class Found:
    """A check, by which rule it was decided, with which read and average, and what the laws decide by that."""

    joined: Joined
    clock: Clock
    by: By
    read: DomainRead
    average: int
    is_exact: bool
    """Whether they give the kernel's rate."""

    @property
    def later(self) -> int:
        """The average of the pause: that of the rate, but after an update of its own, or where any gives the rate, one that gives the pause."""
        told = averages.of_pause(self.joined)
        if self.average in told and not self.joined.is_own:
            told = [self.average, *told]
        fits = (it for it in told if self.clock.milliseconds(self.by_average(it).pause) == max(self.joined.check.pause, 0))
        return next(fits, told[0])

    def by_average(self, later: int) -> Verdict:
        """The decision with such an average of the pause."""
        return self.verdict(later=later)

    def asked(self) -> Asked:
        """What the decision was asked with."""
        check = self.joined.check
        task = Task(check.dirtied, check.allowance, ENDED)
        now = ENDED + self.clock.ticks[check.think]
        return Asked([self.read], check.context_dirty, self.average, check.ratelimit, task, now, 0, self.by is By.STRICT, self.clock)

    def verdict(self, read: DomainRead | None = None, context_dirty: int | None = None, ratelimit: int | None = None,
                later: int | None = None) -> Verdict:
        """The decision by the laws, or what it would be with other numbers."""
        asked = self.asked()
        dirty = asked.context_dirty if context_dirty is None else context_dirty
        rate = asked.ratelimit if ratelimit is None else ratelimit
        is_other = read is not None or context_dirty is not None or ratelimit is not None
        read = read or self.read
        found = decide_for(asked.is_strict, [read], dirty, self.average, rate, asked.task, asked.now, 0, NO_CAP, self.clock)
        if found.kind is Kind.FREE and is_other and self.may_be_free():
            return found
        average = self.later if later is None else later
        positions = found.positions or (position(*read, dirty, self.average),)
        ratio = positions[0].ratio if found.ratio is None else found.ratio
        terms = Terms(False, 0, ratio, found.exceeded)
        return finish(terms, dirty, average, rate, asked.task, asked.now, 0, NO_CAP, self.clock)._replace(positions=positions)

    def may_be_free(self) -> bool:
        """Whether the writer would be free if its own domain let it: the machine's must do so too."""
        state = self.joined.state
        assert state
        return self.by is not By.CGROUP or state.count <= freerun_of(Limits(state.thresh, state.background, state.thresh))

    def rate(self) -> int:
        """The task rate limit by the laws."""
        return self.verdict().rate or 0


def found_of(joined: Joined, clock: Clock) -> Found | None:
    """What decided a check; nothing where the state that it read, or any average, isn't in the text."""
    check = joined.check
    told = averages.of_rate(joined)
    if joined.state is None or not told:
        return None
    if is_by_cgroup(joined):
        own = cgroups.solved(joined)
        if own and own.read:
            return Found(joined, clock, By.CGROUP, own.read, own.average, True)
    reads = reads_of(joined)
    is_below = check.dirty <= freerun_of(reads[-1].limits)
    if not is_below:
        for average in told:
            for read in reversed(reads):
                if check.ratelimit * position(*read, check.context_dirty, average).ratio >> 10 == check.rate:
                    return Found(joined, clock, By.MACHINE, read, average, True)
    if check.rate in strict.rates(joined):
        read = reads[strict.rates(joined).index(check.rate)]
        return Found(joined, clock, By.STRICT, read, told[0], True)
    return Found(joined, clock, By.MACHINE, reads[-1], told[0], False)


def told_lines(found: Found) -> Iterator[str]:
    """Each number that was read, and where it stands in the text."""
    joined, read = found.joined, found.read
    check, state = joined.check, joined.state
    assert state
    at, above = f"line {check.line}", f"line {state.line}"
    yield ROW.format("pages", pages(check.dirty), f"{at}: dirty")
    if found.by is By.CGROUP:
        yield from own_lines(found, at)
    else:
        raised = ", raised for a real-time task" if joined.is_raised else ""
        yield ROW.format("threshold", pages(read.limits.thresh), f"{above}: thresh{raised}")
        yield ROW.format("background", pages(read.limits.background), f"{above}: bg_thresh{raised}")
        yield ROW.format("hard limit", pages(read.limits.hard), limit_source(found, at, above))
    yield ROW.format("disk's pages", pages(check.context_dirty), f"{at}: wb_dirty")
    open_limits = context_limits(check, read.limits.thresh)
    yield ROW.format("disk's threshold", between(open_limits),
                     f"{at}: wb_setpoint {check.context_setpoint} * ({read.limits.thresh} + 1) / setpoint {check.setpoint}")
    yield ROW.format("rate limit", f"{check.ratelimit} pages/s", f"{at}: dirty_ratelimit {4 * check.ratelimit} / 4")
    yield ROW.format("average", f"{found.average} pages/s", source_of(joined, found.average, joined.is_own))
    if found.later != found.average:
        yield ROW.format("average after", f"{found.later} pages/s", source_of(joined, found.later, False) + "; by this one the pause is found")
    yield ROW.format("pages dirtied", pages(check.dirtied), f"{at}: dirtied, of an allowance of {check.allowance}")
    if check.paused:
        yield ROW.format("paused before", f"{check.paused} ms", f"{at}: paused, in this call")


def own_lines(found: Found, at: str) -> Iterator[str]:
    """The limits of a cgroup's own domain, which no line tells."""
    limits, check = found.read.limits, found.joined.check
    yield ROW.format("threshold", pages(limits.thresh), "of the cgroup, told by no line: it gives the rate, and its freerun leaves it open")
    yield ROW.format("freerun", pages(freerun_of(limits)), f"{at}: 2 * setpoint {check.setpoint} - limit {check.limit}, up to one more")


def limit_source(found: Found, at: str, above: str) -> str:
    """Where the hard limit stands."""
    joined, hard = found.joined, found.read.limits.hard
    assert joined.state
    told = joined.state.limit if joined.is_own else joined.check.limit
    if told < hard:
        return f"{above}: thresh, as the limit is below it"
    return f"{above}: limit, before the check's own update" if joined.is_own else f"{at}: limit"


def source_of(joined: Joined, average: int, is_before: bool) -> str:
    """Where an average stands."""
    before, after = joined.before, joined.after
    if after and average == after.average and not is_before:
        return f"line {after.line}: awrite_bw {4 * after.average} / 4, the next estimate of its disk"
    if before and average == before.average:
        return f"line {before.line}: awrite_bw {4 * before.average} / 4, the last estimate of its disk"
    if before:
        return (f"line {before.line}: awrite_bw {4 * before.average} / 4, moved by an eighth of its way to write_bw "
                f"{4 * before.bandwidth} / 4")
    return "of no line"
