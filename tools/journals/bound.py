"""The two bounds of a domain: the one that steps of a journal say, and a closer one.

    bound = greatest hard limit + cpus * domain batch + writers * cap + 2 * error * contexts
    closer bound = max(greatest hard limit + cpus * domain batch, 2 * error) + 2 * error * (contexts - 1) + writers * cap

They are computed from the trace. The writers and the contexts are those of the domain. No page is counted in a domain without a context:
its bound stands for both.
"""
from __future__ import annotations

from laws import counters

from .trace import Trace


def of_domain(trace: Trace, domain: int) -> tuple[int, int, int, int]:
    """CPUs, writers, cap and contexts."""
    contexts = trace.contexts_of(domain)
    writers = [writer for writer in trace.writers() if writer[1] in contexts]
    return trace.cpus, len(writers), trace.cap, len(contexts)


def fixed_bound(trace: Trace, domain: int) -> int:
    """The bound without the greatest hard limit."""
    return counters.fixed_bound(*of_domain(trace, domain))


def closer_bound(trace: Trace, domain: int, hard: int) -> int:
    """The closer bound, of a greatest hard limit."""
    if not trace.contexts_of(domain):
        return hard + fixed_bound(trace, domain)
    return counters.closer_bound(hard, *of_domain(trace, domain))
