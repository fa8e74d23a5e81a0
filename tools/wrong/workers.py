"""Rules that are tried beside each other: each worker has a copy of the programs of its own, and runs one changed program at a time."""
from __future__ import annotations

import os
import queue
from collections.abc import Iterable, Iterator, Sequence
from concurrent.futures import ThreadPoolExecutor
from types import TracebackType

from .inputs import Input
from .rules import Rule
from .trying import Copy


class Workers:
    """So many copies of tools/, in folders of one folder. Leaving it drops what hasn't begun."""

    def __init__(self, tools: str, folder: str, number: int) -> None:
        self.all: list[Copy] = []
        self.copies: queue.SimpleQueue[Copy] = queue.SimpleQueue()
        for at in range(number):
            own = os.path.join(folder, str(at))
            os.mkdir(own)
            self.all.append(Copy(tools, own))
            self.copies.put(self.all[-1])
        self.pool = ThreadPoolExecutor(number)

    def __enter__(self) -> Workers:
        return self

    def __exit__(self, kind: type[BaseException] | None, error: BaseException | None, trace: TracebackType | None) -> None:
        self.pool.shutdown(cancel_futures=True)
        for copy in self.all:
            copy.close()

    def differing(self, parts: Iterable[Sequence[Input]]) -> Iterator[list[Input]]:
        """For each part the inputs of which the unchanged programs print something else; they begin at once."""
        return self.pool.map(self.differing_of, parts)

    def differing_of(self, part: Sequence[Input]) -> list[Input]:
        """Those of one part."""
        copy = self.copies.get()
        try:
            return copy.differing(part)
        finally:
            self.copies.put(copy)

    def noticing(self, rules: Sequence[Rule], parts: Sequence[Sequence[Input]], enough: int) -> Iterator[tuple[Rule, list[Input]]]:
        """Each rule with the inputs that notice it, in the order of the rules."""
        return zip(rules, self.pool.map(lambda rule: self.noticing_of(rule, parts, enough), rules))

    def noticing_of(self, rule: Rule, parts: Sequence[Sequence[Input]], enough: int) -> list[Input]:
        """The inputs that notice one rule."""
        copy = self.copies.get()
        try:
            return copy.noticing(rule, parts, enough)
        finally:
            self.copies.put(copy)
