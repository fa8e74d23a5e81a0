"""The ranges of numbers in a trace and a law text, and of the intervals of a forecast, and what is said of a number outside."""
from __future__ import annotations

from dataclasses import dataclass


@dataclass(frozen=True)
class Range:
    """What numbers of one sort are, the least and the greatest of them."""

    what: str
    least: int
    greatest: int

    def fault(self, number: int) -> str:
        """What is wrong with a number, or nothing."""
        if number < self.least:
            return f"number below {self.least}, the least {self.what}"
        if number > self.greatest:
            return f"number above {self.greatest}, the greatest {self.what}"
        return ""


CPUS = Range("number of CPUs", 1, 64)
CAP = Range("cap", 1, 1024)
EVERY = Range("length of an interval of a forecast", 1, 10**9)
