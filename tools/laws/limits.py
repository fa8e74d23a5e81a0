"""Thresholds of a domain, of a cgroup and of a context, and what follows from limits. All in pages."""
from __future__ import annotations

from collections.abc import Mapping
from typing import NamedTuple

from .numbers import ceil_div

GREATEST_LIMIT = (1 << 32) - 1
"""32 bits, so that a word holds a limit and a sequence, or two limits."""

SETTINGS = {"dirty_ratio": 20, "dirty_background_ratio": 10, "dirty_bytes": 0, "dirty_background_bytes": 0}
"""What is set unless a trace says otherwise."""

PAGE = 4096
"""Bytes of a page."""


class Limits(NamedTuple):
    """Threshold, background threshold and hard limit of a domain."""

    thresh: int
    background: int
    hard: int


def thresholds(settings: Mapping[str, int], avail: int, global_avail: int | None = None) -> tuple[int, int]:
    """The threshold and the background threshold of a domain: of a cgroup where the pages of the global domain are given."""

    def of(in_bytes: int, percent: int) -> int:
        share = percent * 4096 // 100
        if in_bytes and global_avail is None:
            return min(ceil_div(in_bytes, PAGE), GREATEST_LIMIT)
        if in_bytes:
            share = min(ceil_div(in_bytes, global_avail), 4096) if global_avail else 4096
        return min(share * avail // 4096, GREATEST_LIMIT)

    thresh = of(settings["dirty_bytes"], settings["dirty_ratio"])
    background = of(settings["dirty_background_bytes"], settings["dirty_background_ratio"])
    return thresh, background if background < thresh else thresh // 2


def raised(thresh: int, limit: int) -> int:
    """A threshold as kernels raise it for a task of a real-time class, by the following limit. No law of LAWS.md does so."""
    return thresh + thresh // 4 + limit // 32


def freerun_of(limits: Limits) -> int:
    """Up to here writers run free."""
    return (limits.thresh + limits.background) // 2


def setpoint_of(limits: Limits) -> int:
    """Here the control holds the domain."""
    return (freerun_of(limits) + limits.hard) // 2


def cgroup_avail(filepages: int, headroom: int, dirty: int, avail: int, global_dirty: int) -> int:
    """The available pages of a cgroup."""
    clean = filepages - min(filepages, dirty)
    all_clean = avail - min(avail, global_dirty)
    other = all_clean - min(all_clean, clean)
    return filepages + min(headroom, other)


def follow(limit: int, thresh: int, dirty: int) -> int:
    """The next following limit: it rises at once, and falls by a 32nd of what it is above the threshold or the reading."""
    if limit < thresh:
        return thresh
    target = max(thresh, dirty)
    return limit - (limit - target >> 5) if limit > target else limit


def context_thresh(thresh: int, part: int, whole: int, least: int, greatest: int, all_least: int) -> int:
    """A context's threshold, from its fraction part / whole and the shares of its device, in percent; all_least is the sum of all."""
    rest = thresh * (100 - all_least) // 100
    return min(rest * part // whole + thresh * least // 100, thresh * greatest // 100)


def ratelimit_pages(thresh: int, cpus: int) -> int:
    """After how many fresh writes of a CPU a check is due."""
    return max(16, thresh // (32 * cpus))


def chunk_of(average: int, hard: int) -> int:
    """What a flusher writes at once."""
    return (min(average // 2, hard // 8) + 1024) // 1024 * 1024


def quota_of(average: int, hard: int, chunk: int | None) -> int:
    """With how many pages a scan ends: a chunk, or fewer where the device has so many."""
    return chunk_of(average, hard) if chunk is None else min(chunk_of(average, hard), chunk)


def page_at(first: int, pages: int, start: int, passed: int) -> int:
    """The page at which a scan of an inode looks next, that began at a place of it and has passed so many pages."""
    return first + (start + passed) % pages


def place_after(pages: int, start: int, passed: int) -> int:
    """The place of an inode that a scan comes to, that began at a place of it and has passed so many pages."""
    return (start + passed) % pages


def flight_of(pages: int, rate: int) -> int:
    """How many ticks a disk of so many pages a second needs for a batch."""
    return ceil_div(pages * 1000, rate)
