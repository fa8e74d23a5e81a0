"""Values of a parameter as they are given: numbers, and FIRST..LAST..STEP."""
from __future__ import annotations

from program.errors import OtherWords

MOST_VALUES = 200


def values_of(texts: list[str], most: int = MOST_VALUES) -> list[int]:
    """The values, each once, in their order."""
    values: list[int] = []
    for text in texts:
        parts = text.split("..")
        if len(parts) not in (1, 3) or not all(part.isdecimal() for part in parts):
            raise OtherWords(f"'{text}' is neither a number nor FIRST..LAST..STEP")
        numbers = [int(part) for part in parts]
        if len(numbers) == 3 and not numbers[2]:
            raise OtherWords(f"'{text}' has a step of 0")
        values += numbers if len(numbers) == 1 else range(numbers[0], numbers[1] + 1, numbers[2])
        if len(values) > most:
            raise OtherWords(f"more than {most} values")
    return sorted(set(values))
