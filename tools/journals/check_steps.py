"""Which step of a CPU is the last one of a check, with which the check is logged.

A check is a run of steps of its CPU: `first`, `middle`, `limits`, `count` for each of its domains, and `count` for its context. A
flusher's look at all domains begins likewise, and each `count` that follows it has an estimate among the CPU's entries. So the
entries tell which is which, with the CPU's writes and completions, which are entries and steps in one order.

A flusher of a strict device makes a `count` for each of the device's contexts at the end of each look, with or without estimates before.
Such a look makes as many of these as it has estimates, if it has any, so its estimates are told, at the later ones. But where
a check is the next entry and reads all domains, the first `count` of a look may be taken for that of the check.

Twenty-six bytes are kept for each check and each estimate, of at most as many as the longest replay has steps.
"""
from __future__ import annotations

from array import array
from dataclasses import dataclass

from .events import MOST_STEPS, Check, Decision, StepKind

ESTIMATE = 0
"""Domains that are read for an estimate after a flusher's look."""

DECISIONS = list(Decision)


@dataclass(slots=True)
class Found:
    """A check or an estimate at its step. Of an estimate only the moment is told."""

    domains: int
    now: int
    pause: int
    task: int
    context: int
    decision: Decision

    @property
    def is_check(self) -> bool:
        """Whether it is a check."""
        return self.domains != ESTIMATE


class CheckSteps:
    """The checks and the estimates of one CPU."""

    def __init__(self, domains: int) -> None:
        self._all_domains = domains
        self._domains = array("b")
        self._now = array("q")
        self._pause = array("q")
        self._task = array("H")
        self._context = array("B")
        self._decision = array("b")
        self._weighed = array("B")
        self._page_entries = array("I")
        self._pages_told = 0
        self._pages_made = 0
        self._cursor = 0
        self._pairs = 0
        self._counts = 0
        self._is_open = False

    def page(self) -> None:
        """A write or a completion."""
        self._pages_told += 1

    def check(self, event: Check, domains: int) -> None:
        """A check that read so many domains."""
        self._keep(domains, event.now, event.pause, event.task, event.context, DECISIONS.index(event.decision), 0)

    def estimate(self, at: int, context: int, weighed: int = 0) -> None:
        """An estimate of a context, and how many contexts are weighed at the end of the look, as those of a strict device are."""
        self._keep(ESTIMATE, at, 0, 0, context, 0, weighed)

    def step(self, kind: StepKind) -> Found | None:
        """One more step of the CPU: what ends with it."""
        if kind is StepKind.LIMITS:
            if self._pairs == self._all_domains:
                self._pairs = 0
            self._counts, self._is_open = 0, True
        elif kind in (StepKind.FIRST, StepKind.MIDDLE):
            self._is_open = False
        elif kind is not StepKind.COUNT:
            self._pages_made += kind in (StepKind.DIRTY, StepKind.COMPLETE)
            self._pairs, self._is_open = 0, False
        elif self._is_open:
            self._pairs, self._is_open = self._pairs + 1, False
        elif self._pairs:
            self._counts += 1
            if self._is_next():
                return self._found()
        return None

    def _is_next(self) -> bool:
        """Whether what was kept next ends with the count of a context that was made."""
        place = self._cursor
        return (place < len(self._domains) and self._domains[place] in (ESTIMATE, self._pairs)
                and self._counts > self._weighed[place] and self._pages_made == self._page_entries[place])

    def _keep(self, domains: int, now: int, pause: int, task: int, context: int, decision: int, weighed: int) -> None:
        if len(self._domains) < MOST_STEPS:
            self._domains.append(domains)
            self._now.append(now)
            self._pause.append(pause)
            self._task.append(task)
            self._context.append(context)
            self._decision.append(decision)
            self._weighed.append(weighed)
            self._page_entries.append(self._pages_told)

    def _found(self) -> Found:
        place = self._cursor
        self._cursor += 1
        found = Found(self._domains[place], self._now[place], self._pause[place], self._task[place], self._context[place],
                      DECISIONS[self._decision[place]])
        if found.is_check:
            self._pairs = 0
        return found

    @property
    def is_through(self) -> bool:
        """Whether a step was found for each check and each estimate."""
        return self._cursor == len(self._domains)
