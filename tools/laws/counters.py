"""Batches of per-CPU counters, the error, and the two bounds of a domain. All in pages."""
from __future__ import annotations

from .numbers import log2


def domain_batch(cpus: int) -> int:
    """How far a CPU's own number of a domain goes before it is folded."""
    return max(32, 2 * cpus)


def context_batch(cpus: int) -> int:
    """How far a CPU's own number of a context goes before it is folded."""
    return 8 * (1 + log2(cpus))


def error_of(cpus: int) -> int:
    """How far a context's reading is off at most."""
    return cpus * context_batch(cpus)


def fixed_bound(cpus: int, writers: int, cap: int, contexts: int) -> int:
    """The bound of a domain without its greatest hard limit."""
    return cpus * domain_batch(cpus) + writers * cap + 2 * error_of(cpus) * contexts


def closer_bound(hard: int, cpus: int, writers: int, cap: int, contexts: int) -> int:
    """The closer bound of a domain with a context, of its greatest hard limit. No run prints it."""
    twice = 2 * error_of(cpus)
    return max(hard + cpus * domain_batch(cpus), twice) + twice * (contexts - 1) + writers * cap
