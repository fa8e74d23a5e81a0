"""All numbers of a text beside those by the laws, and how many are equal. Checks of real-time tasks and those by a cgroup's own domain
are counted apart."""
from __future__ import annotations

from collections.abc import Callable, Iterator
from enum import Enum

from . import checks, estimates
from .domains import is_by_cgroup
from .joining import Estimated, Free, Joined
from .numbers import Kind, Number, Verdict
from .quick import NO_THINK, THINK, Spans, equal_ones
from .reading import Text
from .whole import Story


class Group(Enum):
    """Whose numbers are counted together."""

    PLAIN = "checks by the machine's domain"
    CGROUP = "checks by a cgroup's own domain"
    RAISED = "checks of real-time tasks, whose thresholds are raised"


class Tally:
    """How many numbers of each kind compare how, and how far those are off that have a verdict of their own."""

    def __init__(self) -> None:
        self.checks = 0
        self.counts = {kind: dict.fromkeys(Verdict, 0) for kind in Kind}
        self.farthest: dict[tuple[Kind, Verdict], Number] = {}
        self.sets: dict[int, int] = {}
        """By a set of numbers that were equal at the first look, how many checks had it."""

    def take_set(self, equal: int) -> None:
        """A check of which these numbers are equal."""
        self.sets[equal] = self.sets.get(equal, 0) + 1

    def settle(self) -> None:
        """Adds what was counted by sets."""
        for equal, many in self.sets.items():
            for kind, place in checks.PLACES.items():
                if equal >> place & 1:
                    self.counts[kind][Verdict.EQUAL] += many
        self.sets.clear()

    def take(self, it: Number) -> None:
        """One number more."""
        self.counts[it.kind][it.verdict] += 1
        if it.verdict in NOTED:
            self.note((it.kind, it.verdict), it)

    def note(self, key: tuple[Kind, Verdict], it: Number) -> None:
        """Keeps the one that is farthest off, the first one of those in the text."""
        best = self.farthest.get(key)
        if best is None or (off(it), -it.line) > (off(best), -best.line):
            self.farthest[key] = it

    def join(self, other: Tally) -> None:
        """Adds another one."""
        self.checks += other.checks
        for kind, counts in other.counts.items():
            for verdict, many in counts.items():
                self.counts[kind][verdict] += many
        for equal, many in other.sets.items():
            self.sets[equal] = self.sets.get(equal, 0) + many
        for key, it in other.farthest.items():
            self.note(key, it)

    def of(self, kind: Kind) -> list[int]:
        """Of each verdict, in their order."""
        self.settle()
        return list(self.counts[kind].values())

    def far(self) -> list[Number]:
        """Of each kind and verdict that has some, the farthest off, in the order of the table."""
        return [self.farthest[kind, verdict] for kind in Kind for verdict in NOTED if (kind, verdict) in self.farthest]

    def kinds(self) -> list[Kind]:
        """The kinds of which there are numbers."""
        return [kind for kind in Kind if any(self.of(kind))]

    def unexplained(self) -> int:
        """Numbers of which there are neither an equal one nor a reason."""
        return sum(of[Verdict.UNEXPLAINED] for of in self.counts.values())


NOTED = (Verdict.DIFFERENT, Verdict.UNEXPLAINED)


def off(it: Number) -> int:
    """How far the kernel's number is from the nearest of the laws."""
    return max(it.low - it.kernel, it.kernel - it.high, 0)


class Comparing:
    """Takes what is joined, and counts. Where each number is wanted, it is given on."""

    def __init__(self, text: Text, each: Callable[[Number, str], None] | None = None) -> None:
        self.text = text
        self.each = each
        self.spans = Spans(text.clock)
        self.tallies = {group: Tally() for group in Group}
        self.plain = self.tallies[Group.PLAIN]
        self.frees = self.estimates = 0
        self.strict: set[str] = set()
        self.raised: set[str] = set()
        self.limit_moved = 0.0

    def take(self, group: Group, it: Number, task: str) -> None:
        """One number more."""
        self.tallies[group].take(it)
        if self.each:
            self.each(it, task)

    def free(self, free: Free) -> None:
        """A state whose reader was free."""
        self.frees += 1
        if (it := checks.of_free(free)) is not None:
            self.take(Group.PLAIN, it, free.state.task)

    def estimate(self, estimated: Estimated) -> None:
        """An estimate's line."""
        self.estimates += 1
        for it in estimates.numbers_of(estimated, self.text.clock, self.limit_moved):
            self.take(Group.PLAIN, it, estimated.sample.task)
        self.limit_moved = estimated.sample.time

    def check(self, joined: Joined) -> None:
        """A check."""
        found = equal_ones(joined, self.spans)
        group, tally = Group.PLAIN, self.plain
        if joined.is_raised:
            group = Group.RAISED
            self.raised.add(joined.check.task)
        elif joined.scale is not None and is_by_cgroup(joined):
            group = Group.CGROUP
        if group is not Group.PLAIN:
            tally = self.tallies[group]
        if joined.is_strict:
            self.strict.add(joined.check.device)
        tally.checks += 1
        if self.each:
            found = 0
        else:
            tally.take_set(found)
        if found not in COMPLETE:
            for it in checks.numbers_of(joined, self.text.clock, found):
                self.take(group, it, joined.check.task)

    def follow(self, sampled: float) -> None:
        """Lines went before, the last estimate of which was printed at this time."""
        self.limit_moved = sampled

    def join(self, other: Comparing) -> None:
        """Adds what another one took that follows."""
        self.text.join(other.text)
        for group, tally in other.tallies.items():
            self.tallies[group].join(tally)
        self.frees += other.frees
        self.estimates += other.estimates
        self.strict |= other.strict
        self.raised |= other.raised

    @property
    def checks(self) -> int:
        """How many checks there are."""
        return sum(tally.checks for tally in self.tallies.values())

    def unexplained(self) -> int:
        """Numbers without a reason."""
        return sum(tally.unexplained() for tally in self.tallies.values())


ALL = (1 << len(checks.KINDS)) - 1
"""All numbers of a check."""

COMPLETE = (ALL, ALL & ~THINK | NO_THINK)
"""The sets of a check whose numbers are all equal."""


def compared(story: Story, each: Callable[[Number, str], None] | None = None) -> Comparing:
    """A story that is held in memory."""
    found = Comparing(story.text, each)
    for free in story.frees:
        found.free(free)
    for item in sorted([*story.checks, *story.estimates], key=lambda it: (it.check if isinstance(it, Joined) else it.sample).line):
        if isinstance(item, Joined):
            found.check(item)
        else:
            found.estimate(item)
    return found


def numbers(story: Story) -> Iterator[Number]:
    """The numbers of each line, in the order of the lines."""
    found: list[Number] = []
    compared(story, lambda it, _: found.append(it))
    yield from sorted(found, key=lambda it: it.line)


def tally_of(story: Story) -> Tally:
    """The count of a whole text, whoever the checks were of."""
    tally = Tally()
    for it in numbers(story):
        tally.take(it)
    return tally
