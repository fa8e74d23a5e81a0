"""Lines of a state and of a check as most of a text are: of a task whose name has no spaces, as tracefs prints them now.

What many lines have in common, as limits, is read once.
"""
from __future__ import annotations

import re
from collections.abc import Callable
from typing import TypeVar

from .tracepoints import DIGITS, KIB_A_PAGE, OLD_NAMES, Balance, Line, State, named

MOST_KEPT = 1 << 12
"""Texts of numbers that are kept."""

A_NUMBER = rf"\d{{1,{DIGITS}}}"
HEAD = r" *([^\s<]\S*-\d+) +\[(\d+)\] \S+ +(\d{1,10}\.\d{6}): "
EITHER = {new: f"(?:{new}|{old})" for old, new in OLD_NAMES.items()}
OF_STATE = "dirty=(N) writeback=(N) bg_thresh=(N thresh=N limit=N) dirtied=(N) written=(N)"
OF_CHECK = (f"bdi (\\S+): limit=(N setpoint=N) dirty=(N) {EITHER['wb_setpoint']}=(N) {EITHER['wb_dirty']}=(N) dirty_ratelimit=(N) "
            "task_ratelimit=(N) dirtied=(N) dirtied_pause=(N) paused=(N pause=-?N period=N think=-?N) cgroup_ino=(N)")
WHOLE_STATE, WHOLE_CHECK = (re.compile(HEAD + of.replace("N", A_NUMBER)).fullmatch
                            for of in (f"global_dirty_state: {OF_STATE}", f"balance_dirty_pages: {OF_CHECK}"))
NUMBERS = re.compile(r"-?\d+")
T = TypeVar("T")


class Kept(dict[str, T]):
    """What texts say, each read once. There are few of them, or they are read again."""

    def __init__(self, read: Callable[[str], T]) -> None:
        super().__init__()
        self.read = read

    def __missing__(self, text: str) -> T:
        if len(self) >= MOST_KEPT:
            self.clear()
        found = self[text] = self.read(text)
        return found


def numbers(text: str) -> tuple[int, ...]:
    """The numbers of fields."""
    return tuple(map(int, NUMBERS.findall(text)))


FIELDS, PAGES, CPUS = Kept(numbers), Kept(lambda text: int(text) // KIB_A_PAGE), Kept(int)
new = tuple.__new__


def read_common(number: int, text: str) -> Line | None:
    """What such a line tells."""
    if "global_dirty_state: " in text:
        found = WHOLE_STATE(text)
        if found:
            task, cpu, time, dirty, writeback, limits, dirtied, written = found.groups()
            return new(State, (number, task, CPUS[cpu], float(time), int(dirty), int(writeback), *FIELDS[limits], int(dirtied), int(written)))
    elif "balance_dirty_pages: " in text:
        found = WHOLE_CHECK(text)
        if found:
            task, cpu, time, disk, limits, dirty, own_setpoint, own_dirty, ratelimit, rate, dirtied, allowance, spans, cgroup = found.groups()
            if cgroup != "1":
                disk = named(disk, cgroup)
            return new(Balance, (number, task, CPUS[cpu], float(time), disk, *FIELDS[limits], int(dirty), int(own_setpoint), int(own_dirty),
                                 PAGES[ratelimit], int(rate) // KIB_A_PAGE, int(dirtied), int(allowance), *FIELDS[spans]))
    return None
