"""Reading a law text. A text that `wbsim law` refuses is refused here with the same line and cause."""
from __future__ import annotations

from dataclasses import dataclass, field

from program.errors import Cause, Fault

from .ranges import CAP, CPUS, Range
from .spelling import column_of, cut
from .whole_text import Refused, WholeText, read_whole

MOMENT = Range("moment", 0, 10**15)
DIRTIED = Range("number of pages dirtied", 0, 2**34)
ALLOWANCE = Range("allowance", 0, 2**34)
AVERAGE = Range("average bandwidth", 1, 2**40)
RATE_LIMIT = Range("rate limit", 1, 2**40)
PAGES = Range("number of dirty pages", 0, 2**23)
MOST_LIMIT = 2**32 - 1
THRESHOLD = Range("threshold", 0, MOST_LIMIT)
BACKGROUND = Range("background threshold", 0, MOST_LIMIT)
HARD_LIMIT = Range("hard limit", 0, MOST_LIMIT)
CONTEXT_THRESHOLD = Range("threshold of a context", 0, MOST_LIMIT)

LINES = (
    ("cpus", (CPUS,)),
    ("cap", (CAP,)),
    ("now", (MOMENT,)),
    ("task", (DIRTIED, ALLOWANCE, MOMENT)),
    ("estimate", (AVERAGE, RATE_LIMIT)),
    ("context", (PAGES,)),
    ("domain", (THRESHOLD, BACKGROUND, HARD_LIMIT, PAGES, CONTEXT_THRESHOLD)),
    ("domain", (THRESHOLD, BACKGROUND, HARD_LIMIT, PAGES, CONTEXT_THRESHOLD)),
)
"""The lines in their order; the last one may be left out."""

WIDE = {CAP: Range("cap", 1, 2**34), PAGES: Range("number of dirty pages", 0, MOST_LIMIT)}
"""What a kernel prints may be more than `wbsim law` takes: an allowance has no cap there, and a disk may have more pages."""

FIELDS = {
    "cpus": ("cpus",), "cap": ("cap",), "now": ("now",), "task": ("dirtied", "allowance", "paused_until"),
    "estimate": ("average", "rate_limit"), "context": ("pages",),
}
"""What the numbers of a line are in a `LawInput`."""


@dataclass(frozen=True)
class DomainReading:
    """What was read of a domain: its limits, its dirty pages, and the context's threshold in it."""

    thresh: int
    background: int
    hard: int
    pages: int
    context_thresh: int


@dataclass
class LawInput:
    """What one decision of a check is made from. The first domain is the global one, a second one the cgroup."""

    cpus: int = 0
    cap: int = 0
    now: int = 0
    dirtied: int = 0
    allowance: int = 0
    paused_until: int = 0
    average: int = 0
    rate_limit: int = 0
    pages: int = 0
    domains: list[DomainReading] = field(default_factory=list)


def read_law(path: str, is_wide: bool = False) -> LawInput:
    """The law text of a file, or one with numbers as large as kernels print them. Raises `Fault` where it is none."""
    return law_of(read_whole(path), is_wide)


def law_of(text: WholeText, is_wide: bool = False) -> LawInput:
    """What a law text says. Raises `Fault` where it is none."""
    reader = LawReader(is_wide)
    text.give(reader)
    if not reader.law.domains:
        wanted = LINES[reader.place][0]
        raise Fault(text.path, text.number + 1, Cause.BAD_LINE, f"the text ends where the '{wanted}' line is wanted")
    return reader.law


class LawReader:
    """Takes a law text line by line."""

    def __init__(self, is_wide: bool = False) -> None:
        self.law = LawInput()
        self.place = 0
        self.is_wide = is_wide

    def spell(self, text: str) -> None:
        """Raises `Refused` where the text isn't spelled as the next line."""
        self._numbers(text)

    def line(self, text: str) -> None:
        """One line. Raises `Refused`."""
        numbers = self._numbers(text)
        word, ranges = LINES[self.place]
        if self.is_wide:
            ranges = tuple(WIDE.get(it, it) for it in ranges)
        found = next(((place, said) for place, said in enumerate(map(Range.fault, ranges, numbers)) if said), None)
        if word == "domain":
            found = min(filter(None, (found, out_of_order(*numbers[:3]))), default=None)
        if found:
            raise Refused(Cause.OUT_OF_RANGE, found[1], column_of(text, found[0]))
        self._take(word, numbers)
        self.place += 1

    def _numbers(self, text: str) -> list[int]:
        """The numbers of the next line."""
        if self.place == len(LINES):
            raise Refused(Cause.BAD_LINE, "line after the last: a law text has at most two 'domain' lines", 1)
        wanted, ranges = LINES[self.place]
        return cut(text, {wanted: len(ranges)}, lambda word: f"'{word}' where the '{wanted}' line is wanted")[1]

    def _take(self, word: str, numbers: list[int]) -> None:
        if word == "domain":
            self.law.domains.append(DomainReading(*numbers))
        for name, number in zip(FIELDS.get(word, ()), numbers):
            setattr(self.law, name, number)


def out_of_order(thresh: int, background: int, hard: int) -> tuple[int, str] | None:
    """The number of a domain's limits that is above the one that it should be at most, and that in a sentence."""
    if thresh > hard:
        return 0, f"a threshold of {thresh} above the hard limit, {hard}"
    if background > thresh:
        return 1, f"a background threshold of {background} above the threshold, {thresh}"
    return None
