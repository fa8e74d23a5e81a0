"""The rule of when an inode is written for its age. Moments are in ticks."""
from __future__ import annotations

DEFAULT_EXPIRE = 3000
"""After so many hundredths of a second an inode of an ageing device is due whose context has no line of its own."""

EXPIRE_TICKS = 10
"""Ticks of a hundredth of a second."""

MOST_NOTICED = 64
"""Inodes that a flusher notices in a turn."""


def due_after(since: int, expire: int | None) -> int:
    """The moment at which an inode is due that was noticed at one."""
    return since + EXPIRE_TICKS * (DEFAULT_EXPIRE if expire is None else expire)
