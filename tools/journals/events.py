"""What each line of a journal says: one type for each sort of line, its fields in the order of the line.

Numbers are those of the line. Counts are in pages, moments in ticks, bandwidths and rate limits in pages a second.
"""
from __future__ import annotations

from dataclasses import dataclass
from enum import Enum
from typing import NewType, Union

MOST_STEPS = 1 << 22
"""Steps of the longest replay."""

Natural = NewType("Natural", int)
Signed = NewType("Signed", int)


class Dirtying(Enum):
    """Whether a write found the page dirty."""

    FRESH = "fresh"
    ALREADY = "already"


class Return(Enum):
    """How a page was given back: it is dirty as before its claim, or it had been dirtied again."""

    DIRTY = "dirty"
    ABSORBED = "absorbed"


class Decision(Enum):
    """What a check decided."""

    FREE = "free"
    GO = "go"
    EXEMPT = "exempt"
    WAIT = "wait"


class StepKind(Enum):
    """What a step does to its word."""

    ADD = "add"
    FOLD = "fold"
    CLEAR = "clear"
    COUNT = "count"
    DIRTY = "dirty"
    CLAIM = "claim"
    COMPLETE = "complete"
    PEAK = "peak"
    UNSEAL = "unseal"
    THRESH = "thresh"
    PUBLISH = "publish"
    FIRST = "first"
    MIDDLE = "middle"
    LIMITS = "limits"
    MARK = "mark"
    UNMARK = "unmark"
    LOOK = "look"
    BACK = "back"


class Bits(Enum):
    """The bits of a page that is left."""

    DIRTY = "dirty"
    WRITEBACK = "writeback"
    BOTH = "both"


class Ending(Enum):
    """How the run ended."""

    DONE = "done"
    HALTED = "halted"
    SPENT = "spent"
    FAULTED = "faulted"


class Scope(Enum):
    """Whose counter a fold is of."""

    DOMAIN = "d"
    CONTEXT = "c"


@dataclass(slots=True)
class Timer:
    """The timer's part begins."""


@dataclass(slots=True)
class Limits:
    """Limits of a domain, as they were published."""

    domain: Natural
    now: Natural
    thresh: Natural
    background: Natural
    hard: Natural


@dataclass(slots=True)
class Period:
    """A domain got a new period, after so many as have passed."""

    domain: Natural
    passed: Natural


@dataclass(slots=True)
class Cpu:
    """A CPU's part begins."""

    cpu: Natural


@dataclass(slots=True)
class Write:
    """A task dirtied a page."""

    task: Natural
    page: Natural
    dirtying: Dirtying


@dataclass(slots=True)
class Fold:
    """A CPU's own number of a counter went into the shared count."""

    scope: Scope
    number: Natural
    version: Natural
    delta: Signed


@dataclass(slots=True)
class Read:
    """What a check read of a domain: its limits and their version, its shared count, and the context's fraction."""

    domain: Natural
    triple: Natural
    thresh: Natural
    background: Natural
    hard: Natural
    version: Natural
    count: Signed
    period: Natural
    part: Natural
    whole: Natural


@dataclass(slots=True)
class Count:
    """What a check read of its context's counter."""

    context: Natural
    version: Natural
    count: Signed


@dataclass(slots=True)
class Check:
    """A check of a writer, and the task's numbers after it."""

    task: Natural
    context: Natural
    now: Natural
    estimate: Natural
    decision: Decision
    pause: Natural
    left: Natural
    dirtied: Natural
    allowance: Natural
    paused_until: Natural


@dataclass(slots=True)
class Claim:
    """A flusher took a page from dirty to under writeback."""

    flusher: Natural
    page: Natural


@dataclass(slots=True)
class Batch:
    """A flusher gave pages to its disk."""

    flusher: Natural
    pages: Natural
    now: Natural
    until: Natural


@dataclass(slots=True)
class Done:
    """A flusher completed a page."""

    flusher: Natural
    page: Natural


@dataclass(slots=True)
class Share:
    """A context's written pages in a domain grew."""

    domain: Natural
    context: Natural
    pages: Natural


@dataclass(slots=True)
class Estimate:
    """A context's estimates were published."""

    context: Natural
    version: Natural
    bandwidth: Natural
    average: Natural
    rate_limit: Natural
    balanced: Natural
    written: Natural
    dirtied: Natural
    at: Natural


@dataclass(slots=True)
class DiskFault:
    """A disk failed on a batch."""

    flusher: Natural
    pages: Natural


@dataclass(slots=True)
class Back:
    """A flusher gave a page back that its disk had failed to write."""

    flusher: Natural
    page: Natural
    how: Return


@dataclass(slots=True)
class Notice:
    """A flusher of an ageing device put an inode on its waiting list."""

    flusher: Natural
    inode: Natural
    since: Natural


@dataclass(slots=True)
class Age:
    """A flusher took the first inode of its waiting list, which was due, to write it."""

    flusher: Natural
    inode: Natural
    due: Natural
    now: Natural


@dataclass(slots=True)
class Take:
    """A flusher took the first inode of its waiting list, due or not, to write it."""

    flusher: Natural
    inode: Natural


@dataclass(slots=True)
class Steps:
    """The steps begin."""


@dataclass(slots=True)
class Step:
    """A step of a CPU, or of the timer (`None`), with the exact count and the bound of each domain after it."""

    number: int
    who: int | None
    kind: StepKind
    counts: tuple[int, ...]
    bounds: tuple[int, ...]


@dataclass(slots=True)
class Left:
    """A page is left dirty, under writeback, or both."""

    page: Natural
    bits: Bits


@dataclass(slots=True)
class Census:
    """Pages that are left dirty, and under writeback."""

    dirty: Natural
    writeback: Natural


@dataclass(slots=True)
class Totals:
    """Fresh writes and completions."""

    fresh: Natural
    done: Natural


@dataclass(slots=True)
class Strict:
    """The greatest exact count of a context of a strict device after any step, and its bound."""

    context: Natural
    most: Natural
    bound: Natural


@dataclass(slots=True)
class End:
    """The end of the run."""

    ending: Ending


Event = Union[
    Timer, Limits, Period, Cpu, Write, Fold, Read, Count, Check, Claim, Batch, Done, Share, Estimate, DiskFault, Back, Notice,
    Age, Take, Steps, Step, Left, Census, Totals, Strict, End,
]
