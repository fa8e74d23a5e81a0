"""Which input of a formula would give a number, where the formula rises or falls with the input throughout."""
from __future__ import annotations

from collections.abc import Callable, Sequence

MOST_OF_GRID = 512
"""Inputs that are tried one by one, about."""


def where(wanted: int, of: Callable[[int], int], low: int, high: int) -> range:
    """The inputs from `low` to `high` that give the number; none is an empty range."""
    rises = of(high) >= of(low)

    def first(is_there: Callable[[int], bool]) -> int:
        """The first input from which on it is so, or one past the last."""
        begin, end = low, high + 1
        while begin < end:
            middle = (begin + end) // 2
            begin, end = (begin, middle) if is_there(middle) else (middle + 1, end)
        return begin

    if rises:
        return range(first(lambda at: of(at) >= wanted), first(lambda at: of(at) > wanted))
    return range(first(lambda at: of(at) <= wanted), first(lambda at: of(at) < wanted))


def between(found: Sequence[int]) -> str:
    """Such inputs in words."""
    return str(found[0]) if len(found) == 1 else f"{found[0]} to {found[-1]}"


def grid(inputs: range, step: int) -> list[int]:
    """Inputs of a range at which a formula may change that does so at multiples of a step and at powers of two: both ends, and these."""
    if not inputs:
        return []
    low, high = inputs[0], inputs[-1]
    step = max(step, (high - low) // MOST_OF_GRID)
    powers = (1 << at for at in range(low.bit_length(), high.bit_length() + 1))
    return sorted({low, high, *range(low - low % step + step, high + 1, step), *(at for at in powers if low <= at <= high)})
