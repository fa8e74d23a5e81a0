"""What is shown of a check of a kernel: its cause and its sentence, which are those of `wb kernel explain`, and its numbers beside those of
the laws.
"""
from __future__ import annotations

from collections.abc import Iterator, Sequence
from dataclasses import dataclass

from kernel import causes
from kernel.domains import is_by_machine
from kernel.found import Found, found_of
from kernel.joining import Joined
from kernel.numbers import UNITS, Number, Verdict
from laws.clock import Clock

from .causes import Cause


@dataclass(frozen=True)
class Told:
    """A check, what decided it as far as the text tells, and its numbers beside those of the laws."""

    joined: Joined
    found: Found | None
    numbers: tuple[Number, ...]

    @property
    def cause(self) -> Cause:
        """Its cause. A rate of 0 is a wait."""
        return Cause("go" if self.joined.check.rate else "wait", causes.cause_of(self.found).value)

    @property
    def sentence(self) -> str:
        """Its cause in a sentence."""
        return causes.sentence(self.joined, self.found)


def told_of(joined: Joined, numbers: Sequence[Number], clock: Clock) -> Told:
    """What is told of a check with these numbers."""
    return Told(joined, found_of(joined, clock), tuple(numbers))


def is_of_machine(joined: Joined) -> bool:
    """Whether a check read the pages of the machine's domain, as its own numbers say, and the text has its limits."""
    check, state = joined.check, joined.state
    return state is not None and (not check.is_of_cgroup or is_by_machine(check, state))


def spans(milliseconds: int, clock: Clock) -> str:
    """A span as the kernel prints it, with its ticks."""
    ticks = clock.ticks[milliseconds]
    return f"{milliseconds} ms ({ticks} tick{'s' * (ticks != 1)})"


def lines_of(told: Told) -> Iterator[str]:
    """Where the period comes from, and each number that can be had by the laws beside the kernel's."""
    check = told.joined.check
    yield f"{'pages':<26}{check.dirty} in the domain, of a hard limit of {check.limit} and a setpoint of {check.setpoint}"
    yield f"{'disk':<26}{check.context_dirty} of them of disk {check.disk}, whose setpoint is {check.context_setpoint}"
    yield f"{'rate limit':<26}{check.ratelimit} pages/s, task rate limit {check.rate} pages/s"
    if check.rate:
        yield f"{'period':<26}{check.period} ms for {check.dirtied} pages at that rate, an allowance of {check.allowance}"
    if told.found:
        yield from (f"  {line}" for line in causes.period_lines(told.found))
    yield f"{'think':<26}{check.think} ms since its last pause ended"
    for number in told.numbers:
        yield f"{number.kind.value:<26}{f'{number.kernel} {UNITS[number.kind]}':<22}{beside(number)}".rstrip()


def beside(number: Number) -> str:
    """What the laws say of a number."""
    if number.verdict is Verdict.EQUAL:
        return "equal by the laws"
    laws = str(number.low) if number.low == number.high else f"{number.low} to {number.high}"
    return f"{number.verdict.value}: {laws} by the laws{f' ({number.reason})' if number.reason else ''}"
