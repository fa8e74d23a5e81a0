"""Proportions: which part of a domain's recent completed writes a context has. Parts age when they are touched."""
from __future__ import annotations

LAST_PERIOD = (1 << 24) - 1


class Half:
    """A part of a domain's events, or a domain's own, with the period that it is of."""

    def __init__(self, events: int) -> None:
        self.period, self.events = 0, events

    def age(self, period: int) -> None:
        """Halves the events for each period that has passed."""
        distance = period - self.period
        self.period, self.events = period, self.events >> distance if distance < 64 else 0

    def new_period(self, by: int) -> bool:
        """A domain's new period, and whether there is one."""
        if self.events <= 1 or self.period + by > LAST_PERIOD:
            return False
        self.age(self.period + by)
        return True


def fraction(part: Half, whole: Half) -> tuple[int, int, int]:
    """The domain's period, and the two numbers of the part's fraction."""
    part.age(whole.period)
    num, den = part.events, whole.events
    if den <= num:
        den = num if num else 1
    return whole.period, num, den


def may_add(num: int, den: int, greatest: int) -> bool:
    """Whether a batch is added to a part, by the greatest share of its device in percent."""
    return den * (1024 * greatest // 100) >= num * 1024
