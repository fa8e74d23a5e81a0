"""What a wrong rule is, and the files that one can change."""
from __future__ import annotations

from typing import NamedTuple


class Rule(NamedTuple):
    """A wrong rule: what it does, the file under tools/, and the text that is changed there, which stands just once in it."""

    name: str
    file: str
    old: str
    new: str


REPLAY, LIMITS, POSITION, PAUSES = "replay.py", "laws/limits.py", "laws/position.py", "laws/pauses.py"
DECISION, ESTIMATE, PROPORTIONS = "laws/decision.py", "laws/estimate.py", "laws/proportions.py"
COUNTERS, ALLOWANCE, STRICT, AGE = "laws/counters.py", "laws/allowance.py", "laws/strict.py", "laws/age.py"
WORKS = "journals/trace.py"
FORECAST, INTERVAL = "forecasting/machine.py", "forecasting/interval.py"
