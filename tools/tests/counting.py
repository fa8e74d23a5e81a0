"""Runs for tests of jobs: each tells its number, and those that are named fail."""
from __future__ import annotations

from typing import Any

from jobs.kinds import Maker, Row
from program.errors import NotThere

MADE: list[int] = []
"""The runs that were made, in their order."""


def maker(spec: dict[str, Any], _folder: str, _words: list[str]) -> Maker:
    """What makes a run."""

    def make(run: int) -> Row:
        MADE.append(run)
        if run in spec.get("fail", []):
            raise NotThere(f"{run} is one that fails")
        return {"square": run * run}

    return make
