"""How many ticks a second has. The laws are stated for 1000; a kernel is built with 100, 250, 300 or 1000 (`CONFIG_HZ`).

Some constants of the laws are spans of time, and others are powers of two near to one. With another number of ticks a second they are:

                                                 1000     250     100
    longest of all pauses    a second / 5         200      50      20    ticks
    least pause begins at    a second / 100        10       2       1
    it grows by              10 seconds / 1024   9.76    2.44    0.97    ticks for each doubling
    divisor of an allowance  2^k >= a second     1024     256     128
    divisor of an average    2^k > a second / 8   128      32      16
    window of a bandwidth    2^k >= 3 seconds    4096    1024     512    ticks
"""
from __future__ import annotations

from dataclasses import dataclass
from functools import cached_property

from .numbers import pow2_up

MOST_KEPT = 1 << 12
"""Spans whose ticks are kept."""


@dataclass(frozen=True)
class Clock:
    """A clock of so many ticks a second."""

    second: int = 1000

    @cached_property
    def longest(self) -> int:
        """The longest of all pauses, in ticks: a fifth of a second."""
        return max(self.second // 5, 1)

    @cached_property
    def least(self) -> int:
        """What a least pause begins with, in ticks: a hundredth of a second."""
        return max(self.second // 100, 1)

    @cached_property
    def near_second(self) -> int:
        """The power of two that stands for a second where pages are counted from a rate."""
        return pow2_up(self.second)

    @cached_property
    def near_eighth(self) -> int:
        """The power of two that stands for an eighth of a second."""
        return pow2_up(1 + self.second // 8)

    @cached_property
    def window(self) -> int:
        """Over how many ticks a bandwidth is taken: the power of two from three seconds on."""
        return pow2_up(3 * self.second)

    @cached_property
    def ticks(self) -> Ticks:
        """By milliseconds as tracepoints print them, the ticks that are printed so, or the next below."""
        return Ticks(self.second)

    def milliseconds(self, ticks: int) -> int:
        """So many ticks as tracepoints print them: rounded towards zero."""
        whole = abs(ticks) * 1000 // self.second
        return whole if ticks >= 0 else -whole


class Ticks(dict[int, int]):
    """Ticks by milliseconds, each computed once. There are few of them, or they are computed again."""

    def __init__(self, second: int) -> None:
        super().__init__()
        self.second = second

    def __missing__(self, span: int) -> int:
        if len(self) >= MOST_KEPT:
            self.clear()
        ticks = -(-abs(span) * self.second // 1000)
        found = self[span] = ticks if span >= 0 else -ticks
        return found


PROFILE = Clock()
"""The clock of the laws: a tick is a millisecond."""
