"""The allowance of a writer: when its check is due. In pages."""
from __future__ import annotations

from typing import NamedTuple

FIRST_ALLOWANCE = 32
FEW_WHERE_EXCEEDED = 8


class Counted(NamedTuple):
    """After a fresh page: pages dirtied of its writer, the CPU's fresh writes since it began anew, its leaks, whether a check is due."""

    dirtied: int
    since: int
    leaks: int
    is_due: bool


def page_done(dirtied: int, allowance: int, exceeded: bool, left: int, since: int, leaks: int, ratelimit_pages: int) -> Counted:
    """Counts a freshly dirtied page, of which the numbers given don't tell yet. `left` are the pages left after it."""
    dirtied, since = dirtied + 1, since + 1
    limit = min(allowance, FEW_WHERE_EXCEEDED) if exceeded else allowance
    if dirtied >= limit:
        since = 0
    elif since >= ratelimit_pages:
        since = limit = 0
    if leaks and dirtied < limit:
        moved = min(leaks, limit - dirtied)
        dirtied, leaks = dirtied + moved, leaks - moved
    return Counted(dirtied, since, leaks, dirtied >= limit or not left)
