"""How the program ends. The first five are those of `wbsim` itself, which has more."""
from __future__ import annotations

from enum import IntEnum


class Status(IntEnum):
    """The status that a shell sees."""

    GOOD = 0
    OTHER_WORDS = 1
    REFUSED = 2
    READ_FAULT = 3
    WRITE_FAULT = 4
    NOT_THERE = 5
    JOBS_FAILED = 6
    UNEXPLAINED = 7
    INTERRUPTED = 130


MEANINGS = {
    Status.GOOD: "good",
    Status.OTHER_WORDS: "other words",
    Status.REFUSED: "a text that is refused (nothing is written)",
    Status.READ_FAULT: "read fault",
    Status.WRITE_FAULT: "write fault",
    Status.NOT_THERE: "what the word needs isn't there, as matplotlib or plotly",
    Status.JOBS_FAILED: "a job that failed each time it was tried",
    Status.UNEXPLAINED: "a kernel's number is unexplained ('kernel compare' alone)",
    Status.INTERRUPTED: "interrupted",
}


def sentence() -> str:
    """All of them, for a help."""
    return "status: " + ", ".join(f"{status.value} {meaning}" for status, meaning in MEANINGS.items())
