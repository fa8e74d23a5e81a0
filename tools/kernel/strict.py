"""The numbers of a check of a strict disk, by the law of those: what of them follows from the disk's own pages."""
from __future__ import annotations

from laws.decision import DomainRead
from laws.pauses import poll_interval
from laws.strict import own_freerun, strict_position, strict_terms

from .joining import Joined
from .numbers import Kind, Number, Verdict, number
from .reads import context_limits, limits_before, reads_of
from .searching import between, grid, where
from .tracepoints import State

ABOVE_HARD = "the profile's own: it lets no writer of a strict disk through whose domain is above its hard limit"
PAGES = "it is of the disk's own pages at that moment, which no line tells; as many as leave it free give it"
ESTIMATE = "the profile's own: it takes the ratio and the setpoint of the domain, a kernel those of the strict disk"


def of_check(joined: Joined) -> Number:
    """Whether the writer of a check is free: it isn't, as the check has a line."""
    assert joined.state
    laws = [int(strict_terms([read], joined.check.context_dirty).free) for read in reads_of(joined)]
    return number(joined.state.line, Kind.FREE, 0, laws)


def of_free_state(state: State) -> Number | None:
    """Whether a writer that was free is so by the law. No line tells its disk's pages, so only the domain can say that it isn't."""
    if state.count <= max(state.limit, state.thresh):
        return None
    return number(state.line, Kind.FREE, 1, [0], (Verdict.DIFFERENT, ABOVE_HARD))


def ratios(joined: Joined) -> list[int]:
    """The position ratios that the inputs leave open. No average is in them."""
    return [strict_position(read, joined.check.context_dirty).ratio for read in reads_of(joined)]


def rates(joined: Joined) -> list[int]:
    """The task rate limits by them."""
    return [joined.check.ratelimit * ratio >> 10 for ratio in ratios(joined)]


def is_below_own(joined: Joined) -> list[bool]:
    """Whether the disk's pages are below its own setpoint, for each read that the inputs leave open."""
    return [joined.check.context_dirty < own_freerun(read) for read in reads_of(joined)]


def poll_intervals(joined: Joined, last: State) -> list[int]:
    """The allowances that a free check leaves, which read this state. The disk had all the domain's pages but those that others have in
    the task's next check."""
    if not joined.state:
        return []
    others = max(joined.check.dirty - joined.check.context_dirty, 0)
    return [poll_interval(max(last.count - others, 0), read.context_limit) for read in reads_of(joined)]


def open_intervals(joined: Joined) -> set[int]:
    """The allowances that a free check before may leave, with any number of pages up to which the disk is free."""
    if not joined.state:
        return set()
    found = set()
    for read in reads_of(joined):
        found |= {poll_interval(pages, read.context_limit) for pages in grid(range(own_freerun(read) + 1), 1)}
    return found


def hint(joined: Joined) -> str:
    """Which context threshold would give a rate, or that none does."""
    check, limits = joined.check, limits_before(joined)

    def rate(at: int) -> int:
        return check.ratelimit * strict_position(DomainRead(limits, check.dirty, at), check.context_dirty).ratio >> 10

    if found := where(check.rate, rate, 0, limits.thresh):
        return (f"it would take a context threshold of {between(found)} pages, its setpoint tells "
                f"{between(context_limits(check, limits.thresh))}")
    return "no context threshold gives it"
