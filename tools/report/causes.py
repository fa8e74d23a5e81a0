"""Why writers paused: of each cause how many checks it has, how many pauses, and how much time."""
from __future__ import annotations

from collections.abc import Iterable
from dataclasses import dataclass
from typing import NamedTuple

from .content import Table


class Cause(NamedTuple):
    """What was decided, and why."""

    decision: str
    why: str


NOT_TOLD = "not told in full"


@dataclass
class Share:
    """What a cause comes to. Times are in the unit of pauses."""

    checks: int = 0
    pauses: int = 0
    paused: int = 0
    longest: int = 0

    def take(self, pause: int) -> None:
        """One check more."""
        self.checks += 1
        self.pauses += pause > 0
        self.paused += pause
        self.longest = max(self.longest, pause)

    def add(self, other: Share) -> None:
        """Another share goes into this one."""
        self.checks += other.checks
        self.pauses += other.pauses
        self.paused += other.paused
        self.longest = max(self.longest, other.longest)


class Causes:
    """The shares of all causes, by task. Pauses are in a unit of which 1000 are a second."""

    def __init__(self, unit: str) -> None:
        self._unit = unit
        self._shares: dict[tuple[str, Cause], Share] = {}

    def take(self, task: str, cause: Cause, pause: int) -> None:
        """A check of a task."""
        self._shares.setdefault((task, cause), Share()).take(max(pause, 0))

    def of_all(self) -> dict[Cause, Share]:
        """By cause."""
        found: dict[Cause, Share] = {}
        for (_, cause), share in self._shares.items():
            found.setdefault(cause, Share()).add(share)
        return found

    def tables(self) -> Iterable[Table]:
        """By cause, and by task and cause: what took most time comes first."""
        shares = self.of_all()
        whole = sum(share.paused for share in shares.values())
        head = ["checks", "pauses", f"paused, {self._unit}", "paused, s", "of all, %", f"longest, {self._unit}"]
        yield Table("Why writers paused", ["decision", "cause", *head],
                    [[*cause, *cells(share, whole)] for cause, share in ordered(shares)])
        rows = [[task, *cause, *cells(share, whole)]
                for task in sorted({task for task, _ in self._shares}, key=lambda name: (len(name), name))
                for cause, share in ordered({cause: share for (of, cause), share in self._shares.items() if of == task})]
        yield Table("The same by task", ["task", "decision", "cause", *head], rows, is_open=False)


def ordered(shares: dict[Cause, Share]) -> list[tuple[Cause, Share]]:
    """By paused time, and then by checks, the most first."""
    return sorted(shares.items(), key=lambda item: (-item[1].paused, -item[1].checks, item[0]))


def cells(share: Share, whole: int) -> list[str]:
    """The numbers of a row."""
    return [str(share.checks), str(share.pauses), str(share.paused), f"{share.paused / 1000:.3f}",
            f"{100 * share.paused / whole:.1f}" if whole else "0.0", str(share.longest)]
