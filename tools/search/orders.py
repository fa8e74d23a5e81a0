"""Order lines as a list that can be changed a little: each is an actor and how many steps it may take, or ticks of the clock."""
from __future__ import annotations

import random
from collections.abc import Sequence

Order = tuple[int | None, int]
"""The CPU, the number of CPUs for the timer, or None for the clock; and how many."""

MOST_ORDERS = 400
LONG = 40
"""Steps of the longest order that is put in at once."""

TICKS = (1, 50, 200)


def changed(orders: Sequence[Order], cpus: int, chance: random.Random) -> list[Order]:
    """The orders with one small change, or with a few."""
    found = list(orders)
    for _ in range(chance.choice((1, 1, 1, 2, 3))):
        found = one_change(found, cpus, chance)
    return joined(found)[:MOST_ORDERS]


def one_change(orders: list[Order], cpus: int, chance: random.Random) -> list[Order]:
    """One order longer or shorter, gone, new, moved, or cut in two."""
    kind = chance.randrange(7) if orders else 2
    at = chance.randrange(len(orders)) if orders else 0
    if kind == 0:
        who, many = orders[at]
        orders[at] = (who, max(1, many + chance.choice((-8, -3, -2, -1, 1, 2, 3, 8, 32))))
    elif kind == 1:
        del orders[at]
    elif kind == 2:
        new: Order = (None, chance.choice(TICKS)) if chance.random() < 0.08 else (chance.randrange(cpus + 1), chance.randint(1, LONG))
        orders.insert(at, new)
    elif kind == 3:
        moved = orders.pop(at)
        orders.insert(chance.randrange(len(orders) + 1), moved)
    elif kind == 4 and orders[at][1] > 1:
        who, many = orders[at]
        cut = chance.randint(1, many - 1)
        orders[at : at + 1] = [(who, cut), (chance.randrange(cpus), chance.randint(1, LONG)), (who, many - cut)]
    elif kind == 5 and at + 1 < len(orders):
        orders[at], orders[at + 1] = orders[at + 1], orders[at]
    elif kind == 6:
        who, many = orders[at]
        orders[at] = (who, chance.randint(1, 2 * many + 1))
    return orders


def joined(orders: Sequence[Order]) -> list[Order]:
    """Neighbours of one actor as one order."""
    found: list[Order] = []
    for who, many in orders:
        if found and found[-1][0] == who:
            found[-1] = (who, found[-1][1] + many)
        else:
            found.append((who, many))
    return found


def lines(orders: Sequence[Order], cpus: int) -> list[str]:
    """The lines of a trace."""
    return [f"tick {many}" if who is None else f"order {'timer' if who == cpus else who} {many}" for who, many in orders]
