"""Lists, records and integers, as definitions have them."""
from __future__ import annotations

from collections.abc import Sequence


def items(values: Sequence[str]) -> str:
    """A list."""
    return " ∷ ".join([*values, "[]"])


def record(**fields: object) -> str:
    """A record."""
    return "record { " + "; ".join(f"{name} = {value}" for name, value in fields.items()) + " }"


def integer(word: str) -> str:
    """A number that may be below 0."""
    number = int(word)
    return f"pos {number}" if number >= 0 else f"negsuc {-number - 1}"
