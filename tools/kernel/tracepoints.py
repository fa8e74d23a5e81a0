"""The three tracepoints of writeback, as typed lines. Pages, rates in pages a second, times in seconds, spans in milliseconds.

Most lines have their fields as kernels print them now, and one expression reads those (`common` has a shorter way for most of these). Any
other line is read field by field: it may have fields that aren't known here and names of older kernels, and what is wrong in it is told with
its column.
"""
from __future__ import annotations

import re
from typing import NamedTuple, Union

from .heads import Heads

LOST = re.compile(r"CPU:\d+ \[(?:LOST (\d+) EVENTS|(\d+) EVENTS DROPPED|EVENTS DROPPED)\]")
DISK = re.compile(r"bdi (\S+?):(?:\s|$)")
FIELD = re.compile(r"(?<!\S)(\w+)=(\S*)")
NUMBER = re.compile(r"-?\d+")

OLD_NAMES = {"bdi_setpoint": "wb_setpoint", "bdi_dirty": "wb_dirty"}
KIB_A_PAGE = 4
DIGITS = 15
"""A number has at most so many: no kernel has that many pages, kilobytes a second, or milliseconds."""

MAY_BE_NEGATIVE = ("pause", "think")
ROOT = ("1", "4294967295", None)
"""How the root cgroup is told, or that there is none."""


class State(NamedTuple):
    """`global_dirty_state`: the global domain, in pages."""

    line: int
    task: str
    cpu: int
    time: float
    dirty: int
    writeback: int
    background: int
    thresh: int
    limit: int
    dirtied: int
    written: int

    @property
    def count(self) -> int:
        """Pages that are dirty or under writeback."""
        return self.dirty + self.writeback


class Sample(NamedTuple):
    """`bdi_dirty_ratelimit`: an estimate of a disk, in pages a second. Bandwidth and average are those before its update."""

    line: int
    task: str
    cpu: int
    time: float
    disk: str
    bandwidth: int
    average: int
    dirty_rate: int
    ratelimit: int
    task_rate: int
    balanced: int


class Balance(NamedTuple):
    """`balance_dirty_pages`: a check of a writer that isn't free. Pages, pages a second, milliseconds."""

    line: int
    task: str
    cpu: int
    time: float
    disk: str
    limit: int
    setpoint: int
    dirty: int
    context_setpoint: int
    context_dirty: int
    ratelimit: int
    rate: int
    dirtied: int
    allowance: int
    paused: int
    pause: int
    period: int
    think: int

    @property
    def device(self) -> str:
        """The disk, whichever cgroup the check is of."""
        return self.disk.partition(" ")[0]

    @property
    def is_of_cgroup(self) -> bool:
        """Whether its writer is in a cgroup of its own."""
        return " " in self.disk


Line = Union[State, Sample, Balance]

PAGES_OF_STATE = ("dirty", "writeback", "bg_thresh", "thresh", "limit", "dirtied", "written")
RATES_OF_SAMPLE = ("write_bw", "awrite_bw", "dirty_rate", "dirty_ratelimit", "task_ratelimit", "balanced_dirty_ratelimit")
PAGES_OF_BALANCE = ("limit", "setpoint", "dirty", "wb_setpoint", "wb_dirty")
RATES_OF_BALANCE = ("dirty_ratelimit", "task_ratelimit")
REST_OF_BALANCE = ("dirtied", "dirtied_pause", "paused", "pause", "period", "think")
EITHER = {new: f"(?:{new}|{old})" for old, new in OLD_NAMES.items()}


def spelled(names: tuple[str, ...]) -> str:
    """The fields of these names in their order, as an expression."""
    return " ".join(f"{EITHER.get(name, name)}=({'-?' if name in MAY_BE_NEGATIVE else ''}\\d{{1,{DIGITS}}})" for name in names)


OF_DISK, OF_CGROUP = r"bdi (\S+): ", r"(?: cgroup_ino=(\d+))?"
STATE = re.compile(rf"\s*{spelled(PAGES_OF_STATE)}\s*")
SAMPLE = re.compile(rf"\s*{OF_DISK}{spelled(RATES_OF_SAMPLE)}{OF_CGROUP}\s*")
BALANCE = re.compile(rf"\s*{OF_DISK}{spelled(PAGES_OF_BALANCE + RATES_OF_BALANCE + REST_OF_BALANCE)}{OF_CGROUP}\s*")


class Bad(Exception):
    """A tracepoint's line is damaged: from which place on (-1: as a whole), and how. `is_range` where a number is none that kernels print."""

    def __init__(self, place: int, how: str, is_range: bool = False) -> None:
        super().__init__(how)
        self.place = place
        self.is_range = is_range


def read_line(number: int, text: str, heads: Heads) -> Line | None:
    """What a line tells, or nothing where it is of no tracepoint here."""
    for event, of in READERS.items():
        place = text.find(event)
        if place > 0:
            break
    else:
        return None
    if text[place - 1] not in " \t:" or text.startswith("#"):
        return None
    head = heads.read(text[:place])
    if head is None:
        raise Bad(0, f"no task, CPU and time stand before {event}")
    return of(number, head, text, place + len(event))


def state(number: int, head: tuple[str, int, float], text: str, place: int) -> State:
    """A line of the global domain."""
    found = STATE.fullmatch(text, place)
    if found:
        return State(number, *head, *map(int, found.groups()))
    of = fields(text, place, {"dirtied": "0", "written": "0"})
    return State(number, *head, *(numeral(of, name, "global_dirty_state") for name in PAGES_OF_STATE))


def sample(number: int, head: tuple[str, int, float], text: str, place: int) -> Sample:
    """A line of an estimate."""
    found = SAMPLE.fullmatch(text, place)
    if found:
        disk, *rates, cgroup = found.groups()
        return Sample(number, *head, named(disk, cgroup), *(int(rate) // KIB_A_PAGE for rate in rates))
    of = fields(text, place, {})
    disk = disk_of(text, place, of, "bdi_dirty_ratelimit")
    return Sample(number, *head, disk, *(numeral(of, name, "bdi_dirty_ratelimit") // KIB_A_PAGE for name in RATES_OF_SAMPLE))


def balance(number: int, head: tuple[str, int, float], text: str, place: int) -> Balance:
    """A line of a check."""
    found = BALANCE.fullmatch(text, place)
    if found:
        disk, limit, setpoint, dirty, own_setpoint, own_dirty, ratelimit, rate, *rest, cgroup = found.groups()
        return Balance(number, *head, named(disk, cgroup), int(limit), int(setpoint), int(dirty), int(own_setpoint), int(own_dirty),
                       int(ratelimit) // KIB_A_PAGE, int(rate) // KIB_A_PAGE, *map(int, rest))
    of = fields(text, place, {})
    event = "balance_dirty_pages"
    disk = disk_of(text, place, of, event)
    return Balance(number, *head, disk, *(numeral(of, name, event) for name in PAGES_OF_BALANCE),
                   *(numeral(of, name, event) // KIB_A_PAGE for name in RATES_OF_BALANCE),
                   *(numeral(of, name, event) for name in REST_OF_BALANCE))


READERS = {"global_dirty_state:": state, "balance_dirty_pages:": balance, "bdi_dirty_ratelimit:": sample}

Fields = dict[str, tuple[int, str]]
"""By a name, where its value begins in the line, and the value."""


def fields(text: str, place: int, unless: dict[str, str]) -> Fields:
    """The fields of a line from a place on, and those that it may leave out."""
    found: Fields = {}
    for field in FIELD.finditer(text, place):
        name = OLD_NAMES.get(field[1], field[1])
        if name in found:
            raise Bad(field.start(), f"{name} stands twice")
        found[name] = (field.start(2), field[2])
    return {**{name: (-1, value) for name, value in unless.items()}, **found}


def numeral(of: Fields, name: str, event: str) -> int:
    """The number of a field."""
    if name not in of:
        raise Bad(-1, f"{event} without {name}")
    place, value = of[name]
    if not NUMBER.fullmatch(value):
        raise Bad(place, f"'{value}' where the number of {name} is wanted")
    if value[0] == "-" and name not in MAY_BE_NEGATIVE:
        raise Bad(place, f"{name} is {value}, below 0", True)
    if len(value.lstrip("-")) > DIGITS:
        raise Bad(place, f"{name} has {len(value.lstrip('-'))} digits, at most {DIGITS} are read", True)
    return int(value)


def disk_of(text: str, place: int, of: Fields, event: str) -> str:
    """The disk that a line is of, with its cgroup where that isn't the root."""
    found = DISK.search(text, place)
    if not found:
        raise Bad(-1, f"{event} without bdi")
    return named(found[1], str(numeral(of, "cgroup_ino", event)) if "cgroup_ino" in of else None)


def named(disk: str, cgroup: str | None) -> str:
    """A disk with its cgroup where that isn't the root."""
    return disk if cgroup in ROOT else f"{disk} of cgroup {cgroup}"
