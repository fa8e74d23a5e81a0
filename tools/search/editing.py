"""A trace with one parameter changed. What the change leaves isn't judged here: the trace is read again."""
from __future__ import annotations

import re
from collections import namedtuple

from program.errors import OtherWords

TYPE_CHECKING = False
if TYPE_CHECKING:
    from collections.abc import Callable

SETTINGS = ("dirty_ratio", "dirty_background_ratio", "dirty_bytes", "dirty_background_bytes")
ORDERS = ("order", "tick")


class Parameter(namedtuple("Parameter", "name unit change")):
    """What is changed: its name, its unit, and how a trace's lines are with another value of it."""

    change: Callable[[list[list[str]], int], list[list[str]]]

    def changed(self, text: str, value: int) -> str:
        """The trace with this value."""
        lines = self.change([line.split(" ") for line in text.splitlines()], value)
        return "".join(" ".join(line) + "\n" for line in lines)


NAMES = "cpus, tasks, cap, avail, device-N (its rate), expire-W (of a context), " + ", ".join(SETTINGS)


def parameter(name: str) -> Parameter:
    """The parameter of a name."""
    if name == "cpus":
        return Parameter(name, "CPUs", cpus)
    if name == "tasks":
        return Parameter(name, "tasks", tasks)
    if name == "cap":
        return Parameter(name, "pages", lambda lines, value: once(lines, ["cap"], value))
    if name == "avail":
        return Parameter(name, "available pages", avail)
    if name in SETTINGS:
        unit = "percent" if name.endswith("ratio") else "bytes"
        return Parameter(name, unit, lambda lines, value: once(lines, ["set", name], value))
    if found := re.fullmatch("device-(0|[1-9][0-9]*)", name):
        return Parameter(name, "pages a second", lambda lines, value: rate(lines, found[1], value))
    if found := re.fullmatch("expire-(0|[1-9][0-9]*)", name):
        return Parameter(name, "hundredths of a second", lambda lines, value: expire(lines, found[1], value))
    raise OtherWords(f"no parameter is named '{name}': {NAMES}")


def once(lines: list[list[str]], words: list[str], value: int) -> list[list[str]]:
    """A line that stands at most once, after that of the CPUs where there was none."""
    rest = [line for line in lines if line[: len(words)] != words]
    place = next((at for at, line in enumerate(rest) if line[0] == "cpus"), -1) + 1
    return [*rest[:place], [*words, str(value)], *rest[place:]]


def avail(lines: list[list[str]], value: int) -> list[list[str]]:
    """The available pages from tick 0 on; those of later ticks in the same measure."""
    first = next((int(line[2]) for line in lines if line[0] == "avail"), 0)
    return [[*line[:2], str(int(line[2]) * value // first if first else value)] if line[0] == "avail" else line for line in lines]


def rate(lines: list[list[str]], device: str, value: int) -> list[list[str]]:
    """A device's rate."""
    if not any(line[:2] == ["device", device] for line in lines):
        raise OtherWords(f"the trace has no device {device}")
    return [[*line[:2], str(value), *line[3:]] if line[:2] == ["device", device] else line for line in lines]


def expire(lines: list[list[str]], context: str, value: int) -> list[list[str]]:
    """After which time an inode of a context is due, also where no line said it."""
    place = next((at for at, line in enumerate(lines) if line[:2] == ["context", context]), None)
    if place is None:
        raise OtherWords(f"the trace has no context {context}")
    rest = [line for line in lines[place + 1 :] if line[:2] != ["expire", context]]
    return [*lines[: place + 1], ["expire", context, str(value)], *rest]


def cpus(lines: list[list[str]], value: int) -> list[list[str]]:
    """The number of CPUs: tasks and flushers go round them in turn, and order lines are left out."""
    changed = []
    for line in lines:
        if line[0] == "cpus":
            line = ["cpus", str(value)]
        elif line[0] == "task":
            line = [*line[:2], str(int(line[1]) % max(value, 1))]
        elif line[0] == "flusher":
            line = [*line[:3], str((value - 1 - int(line[1])) % max(value, 1))]
        if line[0] not in ORDERS:
            changed.append(line)
    return changed


def tasks(lines: list[list[str]], value: int) -> list[list[str]]:
    """The number of tasks: the last ones go, or the first ones come again, with inodes of their own. Order lines are left out."""
    lines = [line for line in lines if line[0] not in ORDERS]
    had = sum(line[0] == "task" for line in lines)
    if not had:
        raise OtherWords("the trace has no task")
    kept = [line for line in lines if line[0] not in ("task", "pace", "write", "rest") or int(line[1]) < value]
    inodes = {line[1]: line for line in lines if line[0] == "inode"}
    following = len(inodes)
    placed = [line[2] for line in lines if line[0] == "task"]
    for task in range(had, value):
        own: dict[str, str] = {}
        kept.append(["task", str(task), placed[task % had]])
        for line in lines:
            if line[0] == "write" and int(line[1]) == task % had:
                if line[2] not in own:
                    own[line[2]] = str(following)
                    kept.append(["inode", str(following), *inodes[line[2]][2:]])
                    following += 1
                kept.append(["write", str(task), own[line[2]], *line[3:]])
            elif line[0] in ("pace", "rest") and int(line[1]) == task % had:
                kept.append([line[0], str(task), *line[2:]])
    return kept
