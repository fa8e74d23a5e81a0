"""A trace as a value."""
from __future__ import annotations

from collections.abc import Callable, Sequence

from .notation import items, record

UNLESS_SAID = {"cpus": "0", "cap": "1024", "dirty_ratio": "20", "dirty_background_ratio": "10", "dirty_bytes": "0", "dirty_background_bytes": "0"}
SETTINGS = ("dirty_ratio", "dirty_background_ratio", "dirty_bytes", "dirty_background_bytes")
LISTS = {"avail": "avail", "device": "devices", "cgroup": "cgroups", "context": "contexts", "inode": "inodes", "task": "tasks", "flusher": "flushers",
         "write": "actions", "rest": "actions"}
"""In which list a line stands, by its word."""


class Further:
    """What lines say of things that other lines declare, by the number of the thing. And the first page of each inode."""

    def __init__(self, lines: Sequence[str]) -> None:
        self.strict, self.cyclic, self.chunk, self.expire, self.estimate, self.pace = (
            said_by(lines, word) for word in ("strict", "cyclic", "chunk", "expire", "estimate", "pace"))
        self.first: dict[str, int] = {}
        pages = 0
        for number, (_, many) in said_by(lines, "inode").items():
            self.first[number] = pages
            pages += int(many)


def said_by(lines: Sequence[str], word: str) -> dict[str, list[str]]:
    """What the lines of a word say, by the number of the thing."""
    split = (line.split(" ") for line in lines)
    return {words[1]: words[2:] for words in split if words[0] == word}


def trace_value(lines: Sequence[str]) -> str:
    """The value of a trace. What orders its steps is left out."""
    further = Further(lines)
    one = dict(UNLESS_SAID)
    many: dict[str, list[str]] = {name: [] for name in LISTS.values()}
    for line in lines:
        word, *rest = line.split(" ")
        if word in ("cpus", "cap"):
            one[word] = rest[0]
        elif word == "set":
            one[rest[0]] = rest[1]
        elif word in LISTS:
            many[LISTS[word]].append(VALUES[word](further, rest))
    settings = f"settings {' '.join(one[name] for name in SETTINGS)}"
    lists = {name: items(values) for name, values in many.items()}
    return record(cpus=one["cpus"], cap=one["cap"], settings=settings, **lists, order="[]", halt="None")


def device(further: Further, words: list[str]) -> str:
    """A device, with its chunk, and whether it is strict or cyclic."""
    number, *rates = words
    said = " ".join(rates)
    if number in further.chunk:
        value = f"chunked_device {said} {further.chunk[number][0]}"
    else:
        value = f"{'strict_device' if number in further.strict else 'device'} {said}"
    return f"(record ({value}) {{ cyclic = true }})" if number in further.cyclic else value


def context(further: Further, words: list[str]) -> str:
    """A context, with its first estimate or its age."""
    number, *places = words
    said = " ".join(places)
    if number in further.estimate:
        return f"given_context {said} {' '.join(further.estimate[number])}"
    if number in further.expire:
        return f"ageing_context {said} {further.expire[number][0]}"
    return f"context {said}"


def task(further: Further, words: list[str]) -> str:
    """A task, with its pace."""
    number, cpu = words
    if number not in further.pace:
        return f"on_cpu {cpu}"
    pages, ticks = further.pace[number]
    return f"(record (on_cpu {cpu}) {{ pace = Some (record {{ pages = {pages}; ticks = {ticks} }}) }})"


VALUES: dict[str, Callable[[Further, list[str]], str]] = {
    "avail": lambda _, words: f"avail {words[0]} {words[1]}",
    "device": device,
    "cgroup": lambda _, words: f"cgroup {words[1]} {words[2]}",
    "context": context,
    "inode": lambda further, words: f"inode {words[1]} {further.first[words[0]]} {words[2]}",
    "task": task,
    "flusher": lambda _, words: f"flusher {words[1]} {words[2]}",
    "write": lambda _, words: f"action.Write {' '.join(words)}",
    "rest": lambda _, words: f"action.Rest {' '.join(words)}",
}
"""What a line is as a value, by its word."""
