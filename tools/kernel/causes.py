"""Why a writer paused: a cause with a sentence, how its period came together, and what would have made the pause shorter."""
from __future__ import annotations

from collections.abc import Callable, Iterator
from enum import Enum
from typing import NamedTuple

from laws.decision import DomainRead
from laws.limits import PAGE, setpoint_of
from laws.position import position
from laws.sentences import row
from laws.strict import own_freerun, strict_position

from .found import By, Found
from .joining import Joined


class Cause(Enum):
    """What held a writer back most."""

    AT_LIMIT = "domain at its hard limit"
    OWN_AT_LIMIT = "strict disk at its own threshold"
    CGROUP_AT_LIMIT = "cgroup at its hard limit"
    NEAR_LIMIT = "rate rounds down to 0"
    DOMAIN = "domain above its setpoint"
    CGROUP = "cgroup above its setpoint"
    DISK = "disk above its part"
    OWN = "strict disk above its freerun"
    RATE = "rate limit of the disk"
    UNKNOWN = "unexplained"
    NOT_TOLD = "not told"


class Part(NamedTuple):
    """What a period has of one thing, in seconds: the rate limit, the domain, or the disk."""

    name: str
    seconds: float
    how: str


def ratios_of(found: Found) -> tuple[int, int]:
    """The ratio that the domain alone would give, in 1024ths, and the one that both give."""
    if found.by is By.STRICT:
        own = strict_position(found.read, found.joined.check.context_dirty)
        return own.polynom, own.ratio
    whole = position(*found.read, found.joined.check.context_dirty, found.average)
    return whole.polynom, whole.ratio


def parts_of(found: Found) -> list[Part]:
    """How a period came together. It has none where the rate is 0."""
    check = found.joined.check
    of_domain, of_both = ratios_of(found)
    rate = check.ratelimit * of_both / 1024
    by_domain = check.ratelimit * of_domain / 1024
    if not check.rate or not rate or not by_domain:
        return []
    alone, with_domain, whole = (check.dirtied / it for it in (check.ratelimit, by_domain, rate))
    disk = "the disk's own polynomial" if found.by is By.STRICT else "the disk's line"
    domain = "the cgroup" if found.by is By.CGROUP else "the domain"
    return [Part("rate limit", alone, f"{check.dirtied} pages at {check.ratelimit} pages/s"),
            Part(domain, with_domain - alone, f"at {of_domain} of 1024 by its polynomial"),
            Part("the disk", whole - with_domain, f"at {of_both} of 1024 by {disk} too")]


def period_lines(found: Found) -> Iterator[str]:
    """The same, a line each, and what of it had gone by. There is none where the rate is 0."""
    think = found.joined.check.think
    parts = parts_of(found)
    for part in parts:
        yield row(part.name, f"{1000 * part.seconds:+.1f} ms", part.how)
    if parts and think:
        yield row("already gone", f"{-think:+.1f} ms", f"since its last pause ended: think={think}")


def cause_of(found: Found | None) -> Cause:
    """The cause."""
    if found is None:
        return Cause.NOT_TOLD
    if not found.is_exact:
        return Cause.UNKNOWN
    check, limits = found.joined.check, found.read.limits
    if not check.rate:
        if check.dirty >= limits.hard:
            return Cause.CGROUP_AT_LIMIT if found.by is By.CGROUP else Cause.AT_LIMIT
        is_own = found.by is By.STRICT and check.context_dirty >= found.read.context_limit
        return Cause.OWN_AT_LIMIT if is_own else Cause.NEAR_LIMIT
    of_rate, of_domain, of_disk = (it.seconds for it in parts_of(found))
    if of_rate >= max(of_domain, of_disk):
        return Cause.RATE
    if of_domain >= of_disk:
        return Cause.CGROUP if found.by is By.CGROUP else Cause.DOMAIN
    return Cause.OWN if found.by is By.STRICT else Cause.DISK


def sentence(joined: Joined, found: Found | None) -> str:
    """The cause in a sentence."""
    check, cause = joined.check, cause_of(found)
    if found is None:
        return "the state that it read, or an average of its disk, isn't in the text: lines were lost, or it begins or ends here"
    limits, whose = found.read.limits, "the cgroup's" if found.by is By.CGROUP else "the"
    setpoint = setpoint_of(limits)
    if cause in (Cause.AT_LIMIT, Cause.CGROUP_AT_LIMIT):
        place = "at" if check.dirty == limits.hard else "above"
        return f"{check.dirty} pages are {place} {whose} hard limit of {limits.hard}: rate 0, the longest pause"
    if cause is Cause.OWN_AT_LIMIT:
        return f"the disk is strict, and its {check.context_dirty} pages are at its own threshold of {found.read.context_limit} or above: " \
               "rate 0, the longest pause"
    if cause is Cause.NEAR_LIMIT:
        return f"{check.dirty} pages are so near {whose} hard limit of {limits.hard}, or the disk so far above its part, that the rate rounds " \
               "down to 0: the longest pause"
    if cause in (Cause.DOMAIN, Cause.CGROUP):
        return f"{check.dirty} pages are above {whose} setpoint of {setpoint}, on the way to the hard limit of {limits.hard}: the rate " \
               f"limit of {check.ratelimit} pages/s becomes {check.rate}"
    if cause is Cause.DISK:
        return f"its disk has {check.context_dirty} pages, above its part of the domain: the rate limit of {check.ratelimit} pages/s becomes " \
               f"{check.rate}"
    if cause is Cause.OWN:
        return f"the disk is strict, and its {check.context_dirty} pages are above its own freerun of {own_freerun(found.read)}, on the way to " \
               f"its threshold of {found.read.context_limit}: the rate limit of {check.ratelimit} pages/s becomes {check.rate}"
    if cause is Cause.RATE:
        return f"its disk's rate limit is {check.ratelimit} pages/s for each writer, and {check.dirtied} pages were dirtied: the domain and the " \
               f"disk's part change that to {check.rate}"
    return f"no rule that is known here gives its rate of {check.rate} pages/s: by the laws it would be {found.rate()}"


class Shorter(NamedTuple):
    """A number that would have made a pause shorter, and the pause then, in ticks."""

    what: str
    pause: int


def shorter(found: Found) -> Iterator[Shorter]:
    """For each number that a person can change, the nearest one by which the pause is at most half."""
    check, limits, read = found.joined.check, found.read.limits, found.read
    half = found.verdict().pause // 2
    if not found.is_exact or check.pause <= 0:
        return
    whose = "the cgroup's threshold" if found.by is By.CGROUP else "the threshold"

    def with_limit(thresh: int) -> DomainRead:
        moved = limits._replace(thresh=thresh, hard=max(limits.hard, thresh))
        return read._replace(limits=moved, context_limit=read.context_limit * thresh // max(limits.thresh, 1))

    def by_limit(thresh: int) -> int:
        return found.verdict(with_limit(thresh)).pause

    def by_pages(fewer: int) -> int:
        return found.verdict(read._replace(dirty=check.dirty - fewer), max(check.context_dirty - fewer, 0)).pause

    def by_rate(ratelimit: int) -> int:
        return found.verdict(ratelimit=ratelimit).pause

    def by_part(context_limit: int) -> int:
        return found.verdict(read._replace(context_limit=context_limit)).pause

    if (at := least(by_limit, limits.thresh, 4 * limits.thresh, half)) is not None:
        more = at - limits.thresh
        yield Shorter(f"{whose} at {at} pages, {more} more ({more * PAGE / 1e6:.1f} MB), and its background threshold as it is", by_limit(at))
    if (fewer := least(by_pages, 0, check.context_dirty, half)) is not None:
        yield Shorter(f"{fewer} fewer pages of its disk that are dirty or under writeback", by_pages(fewer))
    if check.rate and (at := least(by_rate, check.ratelimit, 64 * check.ratelimit, half)) is not None:
        yield Shorter(f"a rate limit of {at} pages/s, {at / max(check.ratelimit, 1):.1f} times as much: a faster disk, or fewer writers on it",
                      by_rate(at))
    if (at := least(by_part, read.context_limit, limits.thresh, half)) is not None and at > read.context_limit:
        yield Shorter(f"the disk's threshold at {at} pages, {at - read.context_limit} more: a greater part of what is written, or its ratios",
                      by_part(at))


def least(pause_by: Callable[[int], int], begin: int, end: int, wanted: int) -> int | None:
    """The least number from begin to end by which the pause is at most so long, where it gets shorter throughout."""
    if begin >= end or pause_by(end) > wanted:
        return None
    while begin < end:
        middle = (begin + end) // 2
        begin, end = (begin, middle) if pause_by(middle) <= wanted else (middle + 1, end)
    return begin
