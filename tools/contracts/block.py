"""The part of a document that a program prints, between two marks: `<!-- tools/NAME prints this -->` and `<!-- to here -->`.

Where the program's words follow its name, the mark has them.
"""
from __future__ import annotations

END = "<!-- to here -->"


def bounds(lines: list[str], tool: str) -> tuple[int, int]:
    """Between which lines of a document the program's part stands."""
    first = lines.index(f"<!-- {tool} prints this -->") + 1
    return first, lines.index(END, first)


def block(path: str, tool: str) -> list[str]:
    """The lines of the part, without the empty ones at its ends."""
    with open(path, encoding="utf-8") as document:
        lines = document.read().split("\n")
    first, last = bounds(lines, tool)
    while first < last and not lines[first]:
        first += 1
    while last > first and not lines[last - 1]:
        last -= 1
    return lines[first:last]


def put_block(path: str, tool: str, printed: list[str]) -> None:
    """Puts what the program printed into the document."""
    with open(path, encoding="utf-8") as document:
        lines = document.read().split("\n")
    first, last = bounds(lines, tool)
    with open(path, "w", encoding="utf-8") as document:
        document.write("\n".join(lines[:first] + [""] + printed + [""] + lines[last:]))


def differs(path: str, tool: str, printed: list[str]) -> str:
    """Why the part isn't what the program printed; nothing where it is. Lines with three marks of code alone don't count."""
    try:
        stands = [line for line in block(path, tool) if line != "```"]
    except ValueError:
        return f"it has no part that {tool} prints"
    if stands == printed:
        return ""
    at = next((at for at, pair in enumerate(zip(stands, printed)) if pair[0] != pair[1]), min(len(stands), len(printed)))
    return f"{tool} prints something else from its line {at + 1} on: {printed[at] if at < len(printed) else 'nothing'}"
