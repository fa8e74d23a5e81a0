"""What a check read of a domain, with the context's threshold in it, which follows from the trace."""
from __future__ import annotations

from laws.decision import DomainRead
from laws.limits import Limits, context_thresh

from .events import Read
from .trace import Trace


def domain_read(trace: Trace, event: Read, context: int) -> DomainRead:
    """The domain's read of a check in a context."""
    device = trace.devices[trace.contexts[context].device]
    all_least = sum(it.least for it in trace.devices)
    of_context = context_thresh(event.thresh, event.part, event.whole, device.least, device.greatest, all_least)
    return DomainRead(Limits(event.thresh, event.background, event.hard), max(event.count, 0), of_context)
