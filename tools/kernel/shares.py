"""What a text tells of its disks: how fast each of them writes, its greatest part of the threshold, whether it is strict; and of its cgroups."""
from __future__ import annotations

from dataclasses import dataclass

from program.errors import OtherWords

from .domains import freeruns, is_by_cgroup
from .joining import Joined
from .tracepoints import State

MOST_RATE = 1 << 20
PERCENT = 100
SAME = 0.002
"""Parts of the threshold that are told with less between them are one."""

CAPPED = 4
"""A disk's part is held where one of so many of its checks tells the greatest one."""

BELOW = 100
"""A disk is strict where more than one of so many of its checks are below the domain's freerun: of no other disk such a check is told."""


@dataclass(frozen=True)
class DeviceOf:
    """A disk: pages a second, its greatest share in percent, whether it is strict."""

    rate: int
    greatest: int
    is_strict: bool


@dataclass(frozen=True)
class OthersOf:
    """What no check tells: pages dirty when the text begins, pages dirtied in all, pages dirtied a second, and how long they stay so, in
    hundredths of a second."""

    opening: int
    pages: int
    rate: int
    age: int


def devices_of(checks: list[Joined], states: list[State], scale: float, others: OthersOf | None) -> dict[str, DeviceOf]:
    """The disks, in the order of their names."""
    rates = rates_of(checks, states, scale, others)
    return {disk: DeviceOf(rates[disk], greatest_of(own), is_strict(own)) for disk, own in by_disk(checks).items()}


def by_disk(checks: list[Joined]) -> dict[str, list[Joined]]:
    """The checks of each disk."""
    found: dict[str, list[Joined]] = {disk: [] for disk in sorted({it.check.device for it in checks})}
    for it in checks:
        found[it.check.device].append(it)
    return found


def rates_of(checks: list[Joined], states: list[State], scale: float, others: OthersOf | None) -> dict[str, int]:
    """Pages a second of each disk. What the machine wrote is that of all disks, but for what others had when the text begins; where more is
    written there, each disk wrote what its own numbers say."""
    span = states[-1].time - states[0].time
    written = {disk: written_by(own, scale) for disk, own in by_disk(checks).items()}
    if min(written.values()) <= 0:
        slow = min(written, key=lambda disk: written[disk])
        raise OtherWords(f"how fast disk {slow} writes can't be told: its writers dirtied no more than it had more in the end")
    whole: float = states[-1].written - states[0].written - (others.opening if others else 0)
    if others and others.pages or whole <= 0:
        whole = sum(written.values())
    parts = {disk: pages / sum(written.values()) for disk, pages in written.items()}
    return {disk: min(max(round(whole * part / span), 1), MOST_RATE) for disk, part in parts.items()}


def written_by(checks: list[Joined], scale: float) -> float:
    """Pages that a disk wrote: what was dirtied, less what it had more in the end."""
    dirtied = scale * sum(it.check.dirtied for it in checks if it.check.pause > 0 or it.check.period > 0)
    for disk in {it.check.disk for it in checks}:
        own = [it.check.context_dirty for it in checks if it.check.disk == disk]
        dirtied -= own[-1] - own[0]
    return dirtied


def greatest_of(checks: list[Joined]) -> int:
    """The greatest share of a disk, in percent, where many checks tell one that none is above: 100 else."""
    shares = sorted(it.check.context_setpoint / it.check.setpoint for it in checks if it.check.setpoint and not is_by_cgroup(it))
    if not shares or shares[-1] > 0.98:
        return PERCENT
    held = sum(share > shares[-1] - SAME for share in shares)
    return min(round(PERCENT * shares[-1]), PERCENT) if held * CAPPED >= len(shares) else PERCENT


def is_strict(checks: list[Joined]) -> bool:
    """Whether a disk is strict, by its checks below the domain's freerun."""
    below = sum(it.state is not None and not it.check.is_of_cgroup and it.check.dirty <= (it.state.thresh + it.state.background) // 2
                for it in checks)
    return below * BELOW > len(checks)


def cgroups_of(checks: list[Joined]) -> dict[str, int]:
    """The threshold of each cgroup, as the middle one of its own checks tells it. Those that hold no writer have the machine's."""
    found: dict[str, list[int]] = {}
    for it in checks:
        if it.check.is_of_cgroup and it.state:
            own = found.setdefault(it.check.disk.partition(" of cgroup ")[2], [])
            if is_by_cgroup(it):
                low, _ = freeruns(it.check)
                own.append(low * 2 * it.state.thresh // max(it.state.thresh + it.state.background, 1))
    machine = max(it.state.thresh for it in checks if it.state)
    return {name: sorted(own)[len(own) // 2] if own else machine for name, own in sorted(found.items())}
