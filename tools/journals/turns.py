"""What a step changes: its page, its counter or its inode, which its own line doesn't say.

The pages of a CPU's steps stand in its entries, in the order of the steps; four bytes for each are kept, of at most as many as
the longest replay has steps. What follows a page's step in a turn is of that page: the CPU's own numbers of its context, of the
global domain, and of its cgroup, and then, after a write or a page given back, the mark of its inode. A turn of the timer begins with
`count`, domain after domain.
"""
from __future__ import annotations

from array import array
from bisect import bisect_right
from collections import deque
from dataclasses import dataclass, field

from .events import MOST_STEPS, Step, StepKind
from .trace import Trace

PAGE_STEPS = {
    StepKind.DIRTY: "sets the dirty bit of {page}",
    StepKind.CLAIM: "takes {page} from dirty to under writeback",
    StepKind.COMPLETE: "takes the bit of writeback from {page}",
    StepKind.BACK: "gives {page} back: it is dirty, and no longer under writeback",
}

STEPS = {
    StepKind.ADD: "adds {delta} to its own number of {counter}",
    StepKind.FOLD: "adds its own number of {counter} to the shared count",
    StepKind.CLEAR: "takes what it folded from its own number of {counter}",
    StepKind.MARK: "marks {inode}",
    StepKind.COUNT: "loads a shared count",
    StepKind.FIRST: "loads the sequence of a domain's limits",
    StepKind.MIDDLE: "loads the thresholds of a domain",
    StepKind.LIMITS: "loads that sequence again, and has new limits of the domain if the timer didn't come between",
    StepKind.UNMARK: "takes the mark from the inode that it took",
    StepKind.LOOK: "looks at a page",
}

TIMER_STEPS = {
    StepKind.COUNT: "loads the shared count of domain {domain}",
    StepKind.PEAK: "raises the peak of domain {domain} to the hard limit that comes, if it is lower",
    StepKind.UNSEAL: "makes the sequence of domain {domain} odd: its limits change now",
    StepKind.THRESH: "stores the thresholds of domain {domain}",
    StepKind.PUBLISH: "publishes the limits of domain {domain}",
}

DELTAS = {StepKind.DIRTY: "1", StepKind.COMPLETE: "-1", StepKind.BACK: "-1"}


class Pages:
    """The pages that each CPU's steps of each kind change, in the order of its entries."""

    def __init__(self, cpus: int) -> None:
        self._pages = {kind: [array("I") for _ in range(cpus)] for kind in PAGE_STEPS}
        self._cursors = {kind: [0] * cpus for kind in PAGE_STEPS}
        self._kept = 0

    def entry(self, kind: StepKind, cpu: int, page: int) -> None:
        """An entry of a step of this kind."""
        self._kept += 1
        if self._kept <= MOST_STEPS:
            self._pages[kind][cpu].append(page)

    def step(self, kind: StepKind, cpu: int) -> int | None:
        """The page of the CPU's next step of this kind, where an entry told it."""
        pages, cursors = self._pages[kind][cpu], self._cursors[kind]
        place = cursors[cpu]
        cursors[cpu] = place + 1
        return pages[place] if place < len(pages) else None


@dataclass
class Turn:
    """What a CPU's turn goes on with after a step on a page."""

    delta: str = "a page's event"
    counter: str = "a counter"
    counters: deque[str] = field(default_factory=deque)
    inode: str = "an inode"


class Turns:
    """Gives the words of each step in turn."""

    def __init__(self, trace: Trace) -> None:
        self.pages = Pages(trace.cpus)
        self._trace = trace
        self._firsts = [inode.first for inode in trace.inodes]
        self._timer_counts = 0
        self._turns = [Turn() for _ in range(trace.cpus)]

    def page(self, page: int) -> str:
        """The name of a page."""
        return f"page {page} (inode {self._inode_of(page)})"

    def words(self, step: Step) -> str:
        """Who does what."""
        if step.who is None:
            return f"the timer {self._timer_words(step.kind)}"
        return f"CPU {step.who} {self._words(step.kind, step.who)}"

    def _timer_words(self, kind: StepKind) -> str:
        if kind is StepKind.COUNT:
            self._timer_counts += 1
        domain = (self._timer_counts - 1) % self._trace.domains
        return TIMER_STEPS.get(kind, kind.value).format(domain=domain)

    def _words(self, kind: StepKind, cpu: int) -> str:
        if kind in PAGE_STEPS:
            page = self.pages.step(kind, cpu)
            self._turns[cpu] = Turn() if page is None or kind is StepKind.CLAIM else self._turn(kind, page)
            return PAGE_STEPS[kind].format(page="a page" if page is None else self.page(page))
        turn = self._turns[cpu]
        if kind is StepKind.ADD:
            turn.counter = turn.counters.popleft() if turn.counters else "a counter"
        elif kind not in (StepKind.FOLD, StepKind.CLEAR, StepKind.MARK):
            self._turns[cpu] = Turn()
        return STEPS.get(kind, kind.value).format(delta=turn.delta, counter=turn.counter, inode=turn.inode)

    def _turn(self, kind: StepKind, page: int) -> Turn:
        inode = self._inode_of(page)
        context = self._trace.inodes[inode].context
        domain = self._trace.contexts[context].domain
        counters = [f"context {context}", "domain 0", *([f"domain {domain}"] if domain else [])]
        return Turn(DELTAS[kind], "a counter", deque(counters), f"inode {inode}")

    def _inode_of(self, page: int) -> int:
        return bisect_right(self._firsts, page) - 1
