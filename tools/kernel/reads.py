"""What a check read: the limits of its domain, and the threshold of its disk in it."""
from __future__ import annotations

from laws.decision import DomainRead
from laws.limits import Limits

from .joining import Joined
from .tracepoints import Balance


def limits_of(joined: Joined) -> Limits:
    """The limits of the machine's domain at a check, with the following limit as its line tells it: after an update of its own."""
    state = joined.state
    assert state
    return Limits(state.thresh, state.background, max(joined.check.limit, state.thresh))


def limits_before(joined: Joined) -> Limits:
    """The same as the position ratio takes them: before an update of its own."""
    state = joined.state
    assert state
    return Limits(state.thresh, state.background, max(state.limit if joined.is_own else joined.check.limit, state.thresh))


def context_limits(check: Balance, thresh: int) -> range:
    """The context thresholds that the printed setpoint leaves open: it is `setpoint * wb_thresh / (thresh + 1)`, rounded down."""
    at, setpoint = check.context_setpoint * (thresh + 1), check.setpoint or 1
    first = -(-at // setpoint)
    last = (at + thresh) // setpoint
    return range(first, (last if last > first else first) + 1)


def reads_of(joined: Joined) -> list[DomainRead]:
    """The reads of the domain that the printed setpoint leaves open: one with the least context threshold, one with the greatest."""
    limits = limits_before(joined)
    open_limits = context_limits(joined.check, limits.thresh)
    first, last = open_limits[0], open_limits[-1]
    dirty = joined.check.dirty
    return [DomainRead(limits, dirty, first)] if first == last else [DomainRead(limits, dirty, first), DomainRead(limits, dirty, last)]
