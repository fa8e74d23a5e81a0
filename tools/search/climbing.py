"""The interleaving that comes nearest to the bound: hill climbing over order lines, begun from several seeds.

A trace's steps are made by `tools/replay.py`. Of each run only the least distance of bound and exact count is kept, and how many steps
were made up to there: of two runs that come as near, the one that does so earlier is better, since orders after that don't count.
"""
from __future__ import annotations

import math
import random
import time
from collections.abc import Sequence
from dataclasses import dataclass

from replay import Machine

from .orders import Order, changed, lines

ORDER_WORDS = ("order", "tick")
STALE = 1500
"""Tries without a better run after which a seed begins again from the best one, or from the first order."""

AHEAD, AHEAD_AT_LEAST = 2, 300
"""A run is given up after so many times the steps of the best one, and so many more."""

MOST_STEPS = 1 << 18
"""Steps of the first run, at most."""

WARM = 3.0
"""How many pages worse a run may be, at first, to be gone on from."""


class Watched(Machine):
    """A machine of which only the distance to the bound is kept. It is over where all tasks have ended, since the count falls from
    there on, or after so many steps."""

    def __init__(self, text: str, domain: int, most: int) -> None:
        self.most = most
        self.least = math.inf
        self.least_at = 0
        self.watched = domain
        super().__init__(text)

    def is_over(self) -> bool:
        """Whether nothing nearer can come, or enough was run."""
        return not self.running or len(self.steps) >= self.most or super().is_over()

    def step(self, who: object, kind: str) -> None:
        """A step, which isn't told."""
        self.steps.append("")
        it = self.domains[self.watched]
        distance = it.peak + it.base - it.exact
        if distance < self.least:
            self.least, self.least_at = distance, len(self.steps)


@dataclass(frozen=True, order=True)
class Score:
    """How good a run is: the less the better."""

    distance: float
    step: int


@dataclass
class Climb:
    """A search: the trace without its order lines, whose domain, and the best orders that were found."""

    text: str
    cpus: int
    domain: int
    first: list[Order]
    score: Score
    orders: list[Order]
    tries: int = 0

    @property
    def most(self) -> int:
        """Steps after which a run is given up."""
        return AHEAD * self.score.step + AHEAD_AT_LEAST if self.score.step else MOST_STEPS

    def scored(self, orders: Sequence[Order]) -> Score:
        """The score of a run with these orders."""
        machine = Watched(self.text + "".join(f"{line}\n" for line in lines(orders, self.cpus)), self.domain, self.most)
        machine.run()
        self.tries += 1
        return Score(machine.least, machine.least_at)

    def trace(self) -> str:
        """The best trace."""
        return self.text + "".join(f"{line}\n" for line in lines(self.orders, self.cpus))


def without_orders(text: str) -> str:
    """A trace without its order lines."""
    return "".join(f"{line}\n" for line in text.splitlines() if line.split(" ")[0] not in ORDER_WORDS)


def orders_of(text: str, cpus: int) -> list[Order]:
    """A trace's own order lines."""
    found: list[Order] = []
    for word, *rest in (line.split(" ") for line in text.splitlines()):
        if word == "tick":
            found.append((None, int(rest[0])))
        elif word == "order":
            found.append((cpus if rest[0] == "timer" else int(rest[0]), int(rest[1])))
    return found


def start(text: str, cpus: int, domain: int) -> Climb:
    """The search, begun with the trace's own order."""
    orders = orders_of(text, cpus)
    climb = Climb(without_orders(text), cpus, domain, orders, Score(math.inf, 0), orders)
    climb.score = climb.scored(orders)
    return climb


def climb_seed(climb: Climb, seconds: float, seed: int, starts: Sequence[list[Order]]) -> None:
    """One seed: a worse run is gone on from at times, and the more seldom the longer it lasts."""
    chance = random.Random(seed)
    begin = time.process_time()
    here = list(starts[seed % len(starts)])
    score, stale = climb.scored(here), 0
    while (past := time.process_time() - begin) < seconds:
        there = changed(here, climb.cpus, chance)
        new = climb.scored(there)
        heat = WARM * max(1 - past / seconds, 0.01)
        if new <= score or chance.random() < math.exp(-(new.distance - score.distance) / heat) * 0.2:
            here, score = there, new
        stale += 1
        if new < climb.score:
            climb.score, climb.orders, stale = new, there, 0
        if stale > STALE:
            here, score, stale = list(climb.orders), climb.score, 0


def shorten(climb: Climb) -> None:
    """Leaves out of the best orders what isn't needed to come as near."""
    at = len(climb.orders) - 1
    while at >= 0:
        fewer = climb.orders[:at] + climb.orders[at + 1 :]
        score = climb.scored(fewer)
        if score.distance <= climb.score.distance:
            climb.orders, climb.score = fewer, score
        at = min(at - 1, len(climb.orders) - 1)
