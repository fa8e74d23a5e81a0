"""A journal as a value."""
from __future__ import annotations

from collections.abc import Callable, Sequence

from .notation import integer, items, record

KINDS = {"free": "kind.Free", "go": "kind.Go", "exempt": "kind.Exempt", "wait": "kind.Wait"}
ENDS = {"done": "ending.Done", "halted": "ending.Halted", "spent": "ending.Spent", "faulted": "ending.Faulted"}
BITS = {"dirty": 1, "writeback": 2, "both": 3}


def truth(is_so: bool) -> str:
    """A truth value."""
    return "true" if is_so else "false"


def counter(name: str) -> str:
    """A counter, as `d0` or `c1`."""
    return f"(counter.{'Domain' if name[0] == 'd' else 'Context'} {name[1:]})"


def joined(words: list[str], many: int) -> str:
    """So many fields of a line."""
    return " ".join(words[1:1 + many])


ENTRIES: dict[str, Callable[[list[str]], str]] = {
    "write": lambda words: f"entry.Write {joined(words, 2)} {truth(words[3] == 'fresh')}",
    "fold": lambda words: f"folded {counter(words[1])} {words[2]} ({integer(words[3])})",
    "claim": lambda words: f"entry.Claimed {joined(words, 2)}",
    "batch": lambda words: f"entry.Batch {joined(words, 4)}",
    "done": lambda words: f"entry.Done {joined(words, 2)}",
    "share": lambda words: f"entry.Share {joined(words, 3)}",
    "fault": lambda words: f"entry.Fault {joined(words, 2)}",
    "back": lambda words: f"entry.Back {joined(words, 2)} {truth(words[3] == 'absorbed')}",
    "notice": lambda words: f"entry.Noticed {joined(words, 3)}",
    "age": lambda words: f"entry.Aged {joined(words, 4)}",
    "take": lambda words: f"entry.Taken {joined(words, 2)}",
}
"""The entries of a CPU's part that are a line each, by its word."""


class Part:
    """A CPU's part: its entries, and the checks and estimates that some of them are."""

    def __init__(self) -> None:
        self.entries: list[str] = []
        self.checks: list[str] = []
        self.estimates: list[str] = []

    def value(self) -> str:
        """The part as a value."""
        return f"part ({items(self.entries)}) ({items(self.checks)}) ({items(self.estimates)})"


class JournalValue:
    """Takes the lines of a journal in turn. What a check read stands in the lines before it."""

    def __init__(self) -> None:
        self.timer: list[str] = []
        self.parts: list[Part] = []
        self.left: list[str] = []
        self.reads: list[str] = []
        self.count = self.ending = ""
        self.others: dict[str, Callable[[list[str]], None]] = {
            "limits": lambda words: self.timer.append(f"limits {joined(words, 5)}"),
            "period": lambda words: self.timer.append(f"timer.Period {joined(words, 2)}"),
            "cpu": lambda _: self.parts.append(Part()),
            "read": lambda words: self.reads.append(f"(read {joined(words, 6)} ({integer(words[7])}) {' '.join(words[8:11])})"),
            "count": self.take_count, "check": self.take_check, "est": self.take_estimate,
            "left": lambda words: self.left.append(f"left {words[1]} {BITS[words[2]]}"),
            "end": self.take_end,
        }

    def take(self, line: str) -> None:
        """A line. What the definitions leave out is passed over."""
        words = line.split(" ")
        if words[0] in ENTRIES:
            self.parts[-1].entries.append(ENTRIES[words[0]](words))
        elif words[0] in self.others:
            self.others[words[0]](words)

    def take_count(self, words: list[str]) -> None:
        """The context's count, which the next check has read."""
        self.count = f"{words[2]} ({integer(words[3])})"

    def take_check(self, words: list[str]) -> None:
        """A check, with what it has read."""
        part = self.parts[-1]
        cgroup = f"(Some {self.reads[1]})" if len(self.reads) > 1 else "None"
        decided = f"{words[4]} {KINDS[words[5]]} {' '.join(words[6:11])}"
        part.entries.append(f"entry.Check {len(part.checks)}")
        part.checks.append(f"check {joined(words, 3)} {self.reads[0]} {cgroup} {self.count} {decided}")
        self.reads = []

    def take_estimate(self, words: list[str]) -> None:
        """An estimate."""
        part = self.parts[-1]
        part.entries.append(f"entry.Est {len(part.estimates)}")
        part.estimates.append(f"estimate {joined(words, 9)}")

    def take_end(self, words: list[str]) -> None:
        """The ending."""
        self.ending = ENDS[words[1]]

    def value(self) -> str:
        """The journal as a value, without its steps."""
        return record(timer=items(self.timer), cpus=items([part.value() for part in self.parts]), steps="[]", bases="[]", homes="[]",
                      left=items(self.left), strict="[]", ending=self.ending)


def journal_value(lines: Sequence[str]) -> str:
    """The value of a journal."""
    told = JournalValue()
    for line in lines:
        told.take(line)
    return told.value()
