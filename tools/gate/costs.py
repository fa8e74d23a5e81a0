"""What the gate takes by crate, and its longest chain."""
from __future__ import annotations

from collections import defaultdict
from collections.abc import Callable, Mapping, Sequence
from dataclasses import dataclass, field

from .process import Process
from .serving import Served, Work, is_check


@dataclass(frozen=True)
class Peak:
    """The most memory that one process had, in KB, and what it served."""

    kilobytes: int
    served: Served | None


@dataclass
class Costs:
    """Seconds of processor time and of elapsed time, by crate and work. The elapsed time of a work is the sum of its checks': where some
    ran beside each other it is more than what it took."""

    cpu: dict[Served, float] = field(default_factory=lambda: defaultdict(float))
    elapsed: dict[Served, float] = field(default_factory=lambda: defaultdict(float))
    checks: dict[Served, int] = field(default_factory=lambda: defaultdict(int))
    other: float = 0
    peak: Peak = Peak(0, None)

    def add(self, process: Process, own: Served | None) -> None:
        """Counts a process."""
        if process.hwm > self.peak.kilobytes:
            self.peak = Peak(process.hwm, own)
        if own is None:
            self.other += process.cpu
            return
        self.cpu[own] += process.cpu
        if is_check(process):
            self.checks[own] += 1
            self.elapsed[own] += process.elapsed

    def of(self, crate: str) -> float:
        """Processor seconds of all that is done for a crate."""
        return sum(self.cpu.get((crate, work), 0) for work in Work)

    def sum(self) -> float:
        """Processor seconds of all crates."""
        return sum(self.cpu.values())


def costs_of(served: Sequence[tuple[Process, Served | None]]) -> Costs:
    """Those of processes with what each serves."""
    found = Costs()
    for process, own in served:
        found.add(process, own)
    return found


@dataclass(frozen=True)
class Chain:
    """Crates of which each waits for the one before it, and how long all that takes. `last` is what ends it: a crate's proof and
    tests, or its seed and edits."""

    crates: tuple[str, ...]
    last: tuple[Work, ...]
    seconds: float


ENDS = ((Work.PROOF, Work.TESTS), (Work.SEED, Work.EDITS))


def longest_chain(uses: Mapping[str, Sequence[str]], seconds: Mapping[Served, float]) -> Chain:
    """The chain of the largest sum: the proof of each crate below the last one, and one of `ENDS` of the last."""
    ways: dict[str, tuple[str, ...]] = {}

    def proof(crate: str) -> float:
        return seconds.get((crate, Work.PROOF), 0)

    def before(crate: str) -> tuple[str, ...]:
        """The crates that it waits for, in the order of their proofs."""
        if crate not in ways:
            ways[crate] = max((before(it) + (it,) for it in uses[crate]), key=sum_of(proof), default=())
        return ways[crate]

    def ending(crate: str, last: tuple[Work, ...]) -> Chain:
        own = sum(seconds.get((crate, work), 0) for work in last)
        return Chain((*before(crate), crate), last, sum_of(proof)(before(crate)) + own)

    return max((ending(crate, last) for crate in uses for last in ENDS), key=lambda it: it.seconds, default=Chain((), ENDS[0], 0))


def sum_of(value: Callable[[str], float]) -> Callable[[tuple[str, ...]], float]:
    """The sum of a value over crates."""
    return lambda crates: sum(map(value, crates))
