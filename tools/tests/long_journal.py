#!/usr/bin/env python3
"""Writes a trace and a long text of a journal's form, to measure what reads it. No run gives it: each round is like the last.

usage: tools/tests/long_journal.py ROUNDS DIRECTORY

A round has 303 steps; 13842 rounds are just under the most that a replay makes, in some 166 MB.
"""
import os
import sys
from collections.abc import Iterator

PAGES = 32
TICKS = 200
PAUSE = 50
BOUND = 2000000
START = 190000
ROUND = [
    *[(0, kind, 1 if kind == "dirty" else 0) for _ in range(PAGES) for kind in ("dirty", "add", "add", "mark")],
    *[(0, kind, 0) for kind in ("first", "middle", "limits", "count", "count")],
    *[("timer", kind, 0) for kind in ("count", "peak", "unseal", "thresh", "publish")],
    *[(1, kind, 0) for kind in ("first", "middle", "limits", "count", "unmark")],
    *[(1, kind, 0) for _ in range(PAGES) for kind in ("look", "claim")],
    *[(1, kind, -1 if kind == "complete" else 0) for _ in range(PAGES) for kind in ("complete", "add", "add")],
]


def trace(rounds: int) -> Iterator[str]:
    """A task that writes the same pages in each round, and rests."""
    yield from ["cpus 2", "avail 0 100000", "device 0 25600 0 100", "context 0 0 0", f"inode 0 0 {PAGES}", "task 0 0",
                "flusher 0 0 1"]
    for _ in range(rounds):
        yield f"write 0 0 0 {PAGES}"
        yield f"rest 0 {TICKS - PAUSE}"


def journal(rounds: int) -> Iterator[str]:
    """A check, a batch, an estimate and new limits in each round."""
    moments = range(1, 1 + TICKS * rounds, TICKS)
    yield "timer"
    yield "limits 0 1 19995 9985 19995"
    for now in moments:
        yield f"limits 0 {now} 19995 9985 19995"
    yield "cpu 0"
    for version, now in enumerate(moments, 1):
        for page in range(PAGES):
            yield f"write 0 {page} fresh"
        yield f"read 0 {version} 19995 9985 19995 {version} 19000 0 1 2"
        yield f"count 0 {version} 19000"
        yield f"check 0 0 {now} {version} go {PAUSE} {PAGES} 0 {PAGES} {now + PAUSE}"
    yield "cpu 1"
    for version, now in enumerate(moments, 1):
        yield f"est 0 {version} 25600 25600 {25600 - version % 1000} 25600 {version * PAGES} {version * PAGES} {now}"
        for page in range(PAGES):
            yield f"claim 0 {page}"
        yield f"batch 0 {PAGES} {now} {now + 2}"
        for page in range(PAGES):
            yield f"done 0 {page}"
        yield f"share 0 0 {PAGES}"
    yield "steps"
    yield from steps(rounds)
    yield from ["census 0 0", f"totals {rounds * PAGES} {rounds * PAGES}", "end done"]


def steps(rounds: int) -> Iterator[str]:
    """The steps of all rounds."""
    count = START
    for number in range(rounds):
        for place, (who, kind, change) in enumerate(ROUND, number * len(ROUND) + 1):
            count += change
            yield f"step {place} {who} {kind} {count} {BOUND}"


def write(rounds: int, directory: str) -> tuple[str, str]:
    """Writes both texts, and answers their paths."""
    paths = os.path.join(directory, "long.trace"), os.path.join(directory, "long.journal")
    for path, lines in zip(paths, (trace(rounds), journal(rounds))):
        with open(path, "w", encoding="ascii") as file:
            file.writelines(f"{line}\n" for line in lines)
    return paths


if __name__ == "__main__":
    if len(sys.argv) != 3:
        sys.exit(__doc__)
    print(*write(int(sys.argv[1]), sys.argv[2]), sep="\n")
