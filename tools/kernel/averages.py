"""Which averages a check may have been decided by, and how an average came about that no single update gives.

A line of an estimate tells bandwidth and average before its update. The update makes one of two averages: the same one, or one moved towards
the bandwidth; which of them, the bandwidth after it decides. The kernel updates without a line too, when pages were written, and then the
next line tells what the last of these updates made. Such an update is solved for: there is one only where a bandwidth gives the average that
was told, and pages that the machine wrote in the time give that bandwidth.
"""
from __future__ import annotations

from collections.abc import Iterator
from typing import NamedTuple

from laws.clock import Clock
from laws.estimate import AGE, moved, next_average, next_bandwidth

from .joining import Estimated, Joined
from .searching import where
from .tracepoints import Sample

ERROR = 512
"""Pages by which what the machine has written may be told wrongly: its counter has parts of each CPU that aren't added up yet."""

MOST_TRIED = 1024
"""Averages of an update between, which are tried one by one."""

MOST_MEANS = 64
"""Means over a long time that are tried."""

MOST_UPDATES = 16
"""Updates in a row whose reach is computed."""


def of_rate(joined: Joined) -> list[int]:
    """The averages by which the rate may have been found, the likelier first."""
    if joined.is_own and joined.before:
        return [joined.before.average]
    return of_pause(joined)


def of_pause(joined: Joined) -> list[int]:
    """The averages by which the pause may have been found: those after an update of its own, the likelier first."""
    found = [joined.after.average] if joined.after else []
    if before := joined.before:
        for average in (before.average, moved(before.average, before.bandwidth)):
            if average not in found:
                found.append(average)
    return found


def between(joined: Joined, clock: Clock) -> range:
    """The averages that no line tells: after a long time without an update any mean that what the machine wrote allows; between two lines
    those between both, if there is time for two updates; after the last line, as far as updates reach from it."""
    told = of_pause(joined)
    if not told or not joined.last or not joined.before:
        return range(0)
    if is_mean(joined.last, clock):
        return range(1, max(most_mean(joined.last, clock), *told) + 1)
    if not joined.after:
        return reach(joined.before, joined.check.time - joined.before.time, clock)
    return range(min(told), max(told) + 1) if updates(joined.after.time - joined.before.time) >= 2 else range(0)


def most_mean(it: Estimated, clock: Clock) -> int:
    """The greatest mean of a long time: by what the machine wrote in it, or where no line tells that, what the disk wrote before."""
    if it.before is None or it.written is None:
        return max(it.sample.bandwidth, it.sample.average)
    return (it.written[0] + ERROR) * clock.second // clock.window


def is_mean(it: Estimated, clock: Clock) -> bool:
    """Whether the update of an estimate may have come longer than a window after the one before: then the average is a mean of that time.
    Of the first one in a text only its own line can say so, where fewer pages than one a second were dirtied since."""
    if it.before is None:
        return not it.sample.dirty_rate
    return (it.sample.time - it.before.time) * clock.second >= clock.window


def updates(seconds: float) -> int:
    """How many updates an estimate may have in this time, at most: a little more than by its age, as times are told roughly."""
    return min(int(seconds * 1000 / AGE + 0.5), MOST_UPDATES)


def reach(sample: Sample, seconds: float, clock: Clock) -> range:
    """The averages that updates may have made in this time after a line. What the disk wrote meanwhile isn't told, but it is at most what
    would keep up the bandwidth."""
    averages = [sample.average, moved(sample.average, sample.bandwidth)]
    low, high = min(averages), max(averages)
    ticks = min(int(seconds * clock.second) + 1, clock.window)
    slow, _ = next_bandwidth(sample.bandwidth, sample.average, 0, ticks, clock)
    fast = max(sample.bandwidth, sample.average)
    if ticks >= clock.window:
        low = 1
    for _ in range(updates(seconds)):
        low, high = min(low, moved(low, slow)), max(high, moved(high, fast))
    return range(low, high + 1)


class Span(NamedTuple):
    """An update's bounds: at most so many ticks, and so many pages that were written in them."""

    ticks: int
    pages: int


class Solved(NamedTuple):
    """An update without a line: the bandwidth and the average before it, and how many there are."""

    bandwidth: int
    average: int
    many: int


def solved(it: Estimated, clock: Clock) -> Solved | None:
    """The update without a line between an estimate's line and the next that gives the average of the next, if one does."""
    sample, after = it.sample, it.after
    assert after and it.written
    since = (sample.time - it.before.time) if it.before else clock.window
    first = Span(min(int(since * clock.second) + 1, clock.window + 1), it.written[0] + ERROR)
    second = Span(min(int((after.time - sample.time) * clock.second) + 1, clock.window + 1), it.written[1] + ERROR)
    if not may_be_made(it, first, second, clock):
        return None
    for average, low, high in after_update(sample.bandwidth, sample.average, first, clock):
        found = bandwidth_between(average, low, high, after, second, clock)
        if found is not None:
            return Solved(found, average, 1)
    if updates(after.time - sample.time) < 2:
        return None
    for average, low, high in after_update(sample.bandwidth, sample.average, first, clock):
        if two := two_between(average, low, high, after, second, clock):
            return two
    many = updates(after.time - sample.time)
    return Solved(0, 0, many) if many > 2 else None


def may_be_made(it: Estimated, first: Span, second: Span, clock: Clock) -> bool:
    """Whether updates in the time reach what the next line tells."""
    sample, after = it.sample, it.after
    assert after
    ways = list(after_update(sample.bandwidth, sample.average, first, clock))
    slow = bandwidths(min(low for _, low, _ in ways), second, clock)[0]
    fast = max(bandwidths(high, second, clock)[1] for _, _, high in ways)
    low, high = min(way[0] for way in ways), max(way[0] for way in ways)
    if second.ticks > clock.window:
        low, high = 1, max(high, fast)
    for _ in range(max(updates(after.time - sample.time), 1)):
        low, high = min(low, moved(low, slow)), max(high, moved(high, fast))
    return low <= after.average <= high and slow <= after.bandwidth <= fast


def after_update(bandwidth: int, average: int, span: Span, clock: Clock) -> Iterator[tuple[int, int, int]]:
    """What an update may have made of a bandwidth and an average: an average, and from which to which bandwidth it then goes with."""
    low, high = bandwidths(bandwidth, span, clock)
    bounds = sorted({low, high, *(at for at in (bandwidth - 1, bandwidth, bandwidth + 1) if low <= at <= high)})
    averages = {next_average(average, bandwidth, at) for at in bounds}
    for one in sorted(averages):
        fits = [at for at in bounds if next_average(average, bandwidth, at) == one]
        yield one, fits[0], fits[-1]
    if span.ticks > clock.window:
        most = span.pages * clock.second // clock.window
        for one in range(0, most + 1, max(most // MOST_MEANS, 1)):
            yield max(one, 1), one, one


def bandwidths(bandwidth: int, span: Span, clock: Clock) -> tuple[int, int]:
    """The least and the greatest bandwidth after an update in this time."""
    ticks = min(span.ticks, clock.window)
    low, _ = next_bandwidth(bandwidth, bandwidth, 0, ticks, clock)
    high, _ = next_bandwidth(bandwidth, bandwidth, span.pages, 1, clock)
    return low, high


def bandwidth_between(average: int, low: int, high: int, after: Sample, span: Span, clock: Clock) -> int | None:
    """A bandwidth from low to high from which an update makes what the next line tells, with this average before it."""
    told, new = after.average, after.bandwidth
    if span.ticks > clock.window and told == max(new, 1):
        return low
    reached, _ = bandwidths(low, span, clock)
    _, most = bandwidths(high, span, clock)
    if not reached <= new <= most:
        return None
    for begin, end in ((low, min(high, average, new)), (max(low, min(average, new)), min(high, max(average, new))),
                       (max(low, average, new), high)):
        if begin <= end and (found := where(told, lambda at: next_average(average, at, new), begin, end)):
            for at in (found[0], found[-1]):
                least, greatest = bandwidths(at, span, clock)
                if least <= new <= greatest:
                    return at
    return None


def two_between(average: int, low: int, high: int, after: Sample, span: Span, clock: Clock) -> Solved | None:
    """The same with one more update before it."""
    least, greatest = bandwidths(low, span, clock)[0], bandwidths(high, span, clock)[1]
    begin, end = sorted((moved(average, low), moved(average, high)))
    tried = range(min(begin, average), max(end, average) + 1)
    for one in tried[::max(len(tried) // MOST_TRIED, 1)]:
        found = bandwidth_between(one, least, greatest, after, span, clock)
        if found is not None:
            return Solved(found, one, 2)
    return None
