"""The runs of `wb nearest`: a search from each seed."""
from __future__ import annotations

import os
from typing import Any

from jobs.kinds import Maker, Row

from .climbing import climb_seed, orders_of, start


def maker(spec: dict[str, Any], folder: str, _words: list[str]) -> Maker:
    """What searches from the seed of a run's number: from the trace's own order and from none, in turn."""
    with open(os.path.join(folder, spec["trace"]), encoding="latin-1") as file:
        text = file.read()

    def make(seed: int) -> Row:
        climb = start(text, spec["cpus"], spec["domain"])
        starts = [orders_of(text, spec["cpus"]), []] if climb.orders else [[]]
        climb_seed(climb, spec["seconds"], seed, starts)
        return {"distance": climb.score.distance, "step": climb.score.step, "tries": climb.tries, "orders": climb.orders}

    return make
