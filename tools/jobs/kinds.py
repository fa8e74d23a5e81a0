"""The kinds of runs. A kind's module has `maker(spec, folder, words)`, which answers what makes the run of a number.

`spec` is what the plan tells, `folder` has the inputs, and `words` are those of the program. What is made is one row: names and values.
"""
from __future__ import annotations

from collections.abc import Callable
from importlib import import_module

from program.errors import OtherWords

TYPE_CHECKING = False
if TYPE_CHECKING:
    from typing import Any

Row = dict[str, "Any"]
Maker = Callable[[int], Row]

KINDS = {
    "study": "study.making",
    "nearest": "search.seeking",
    "judge": "judging.making",
}


def maker(kind: str, spec: dict[str, Any], folder: str, words: list[str]) -> Maker:
    """What makes a run of a kind."""
    if kind not in KINDS:
        raise OtherWords(f"there is no kind of runs '{kind}'")
    return import_module(KINDS[kind]).maker(spec, folder, words)
