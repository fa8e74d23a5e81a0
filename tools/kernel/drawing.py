"""A picture of a disk: its pages between limits, the task rate limits, and each pause, kernel and laws in two colours.

All three parts have one axis from left to right: seconds from the first check of the text.
"""
from __future__ import annotations

from collections.abc import Sequence
from typing import Any

from laws.limits import Limits, freerun_of, setpoint_of

from . import cgroups
from .domains import is_by_cgroup
from .joining import Joined
from .whole import Story
from .numbers import Kind, Number, Verdict
from .reads import limits_of

WIDTH, DOTS_AN_INCH = 11, 100
KERNEL, LAWS = "#1f4e9c", "#e07b1a"
LIMIT, SETPOINT, FREERUN, DOMAIN, OWN_SETPOINT, RATE_LIMIT = "#b3202c", "#8a5bb5", "#3d8f4f", "#9a9a9a", "#c9a0dc", "#555555"
ROW = 0.44
"""What the highest bar takes of the height of its row, above its line and below it."""

PEAKS = 50
"""Where the greatest rate is more than so many times the median, rates are drawn by their logarithm."""

Numbers = dict[tuple[int, Kind], Number]
"""Numbers by line and kind."""


def compose(story: Story, disk: str, found: Numbers, title: str, begin: float, end: float) -> Any:
    """The figure of a disk, of the seconds from begin to end."""
    from matplotlib.figure import Figure

    first = story.checks[0].check.time
    checks = [it for it in story.checks if it.check.disk == disk and it.state and begin <= it.check.time - first <= end]
    tasks = sorted({it.check.task for it in checks})
    height = min(max(1.6, 0.8 * len(tasks)), 6)
    figure = Figure(figsize=(WIDTH, 6.4 + height), layout="constrained")
    pages, rates, pauses = figure.subplots(3, 1, sharex=True, height_ratios=[3, 2.6, height])
    draw_pages(checks, pages, first)
    draw_rates(checks, found, rates, first)
    draw_pauses(checks, tasks, found, pauses, first)
    figure.suptitle(f"{title}: disk {disk}, {len(checks)} checks")
    pauses.set_xlabel("seconds from the first check")
    if checks:
        last = max(it.check.time - first for it in checks)
        pauses.set_xlim(max(begin, min(it.check.time - first for it in checks)) - 0.01 * last, min(end, 1.01 * last))
    return figure


def beside_axes(axes: Any) -> None:
    """The names of the curves, to the right."""
    axes.legend(loc="center left", bbox_to_anchor=(1.0, 0.5), fontsize=8, frameon=False)


def draw_pages(checks: Sequence[Joined], axes: Any, first: float) -> None:
    """The disk's pages and the domain's, and the domain's limit, setpoint and freerun."""
    times = [it.check.time - first for it in checks]

    def held(values: Sequence[int], **look: Any) -> None:
        axes.step(times, values, where="post", **look)

    limits = [own_limits(it) for it in checks]
    held([it.hard for it in limits], color=LIMIT, label="hard limit", linewidth=1.2)
    held([setpoint_of(it) for it in limits], color=SETPOINT, label="setpoint", linewidth=1.2)
    held([freerun_of(it) for it in limits], color=FREERUN, label="freerun", linewidth=1.2)
    held([it.check.context_setpoint for it in checks], color=OWN_SETPOINT, label="setpoint of the disk", linewidth=1.0, linestyle="--")
    is_own = any(map(is_by_cgroup, checks))
    held([it.check.dirty for it in checks], color=DOMAIN, label="pages of the domain" if is_own else "pages of all disks", linewidth=1.0)
    held([it.check.context_dirty for it in checks], color=KERNEL, label="pages of the disk", linewidth=1.0)
    axes.set_ylabel("pages")
    axes.ticklabel_format(axis="y", style="plain", useOffset=False)
    axes.set_ylim(bottom=0)
    beside_axes(axes)


def own_limits(joined: Joined) -> Limits:
    """The limits of the domain by which a check was made: of its cgroup's own where a threshold of that gives its rate."""
    if is_by_cgroup(joined) and (own := cgroups.solved(joined)) and own.read:
        return own.read.limits
    return limits_of(joined)


def draw_rates(checks: Sequence[Joined], found: Numbers, axes: Any, first: float) -> None:
    """The task rate limit of each check: the kernel's as a ring, that of the laws as a dot in it."""
    rates = [(it.check.time - first, found[it.check.line, Kind.RATE]) for it in checks if (it.check.line, Kind.RATE) in found]
    times = [time for time, _ in rates]
    axes.step([it.check.time - first for it in checks], [it.check.ratelimit for it in checks], where="post", color=RATE_LIMIT,
              linewidth=1.0, label="rate limit of the disk's writers")
    axes.plot(times, [it.kernel for _, it in rates], "o", markersize=4.5, markerfacecolor="none", markeredgewidth=0.7, color=KERNEL,
              label="task rate limit, kernel")
    axes.plot(times, [it.laws for _, it in rates], ".", markersize=3, color=LAWS, label="task rate limit, laws")
    greatest = max((it.kernel for _, it in rates), default=1)
    middle = sorted(it.kernel for _, it in rates)[len(rates) // 2] if rates else 1
    if greatest > PEAKS * max(middle, 1):
        axes.set_yscale("symlog", linthresh=100)
        axes.set_ylabel("pages a second,\nabove 100 by their logarithm")
    else:
        axes.set_ylabel("pages a second")
        axes.ticklabel_format(axis="y", style="plain", useOffset=False)
    axes.set_ylim(bottom=-0.02 * axes.get_ylim()[1] if axes.get_yscale() == "linear" else -20)
    said = ", ".join(f"{many} {verdict.value}" for verdict in Verdict if (many := sum(it.verdict is verdict for _, it in rates)))
    axes.set_title(f"task rate limits, {len(rates)}: {said}", fontsize=9, loc="left")
    beside_axes(axes)


def draw_pauses(checks: Sequence[Joined], tasks: Sequence[str], found: Numbers, axes: Any, first: float) -> None:
    """A row for each task, and in it each pause: the kernel's upwards, that of the laws downwards, as wide as it is long, and as high as
    the root of that, so that short ones show beside long ones."""
    from matplotlib.collections import PolyCollection

    rows = {task: row for row, task in enumerate(tasks)}
    pauses = [(it, found[it.check.line, Kind.PAUSE]) for it in checks if (it.check.line, Kind.PAUSE) in found]
    longest = max((max(it.kernel, it.laws) for _, it in pauses), default=0)
    for name, color, side in (("kernel, upwards", KERNEL, -1), ("laws, downwards", LAWS, 1)):
        bars = []
        for joined, it in pauses:
            length = it.kernel if color == KERNEL else it.laws
            if length:
                begin, foot = joined.check.time - first, rows[joined.check.task]
                top = foot + side * ROW * (length / longest) ** 0.5
                end = begin + length / 1000
                bars.append([(begin, foot), (begin, top), (end, top), (end, foot)])
        axes.add_collection(PolyCollection(bars, facecolors=color, edgecolors=color, linewidths=0.2, label=f"pause, {name}"))
    axes.set_ylim(len(tasks) - 0.45, -0.55)
    axes.set_yticks(range(len(tasks)), tasks, fontsize=8)
    equal = sum(it.kernel == it.laws for _, it in pauses)
    many = sum(it.kernel > 0 for _, it in pauses)
    axes.set_title(f"pauses, as wide as they are long; {longest} ms are a whole height, {longest // 4} ms a half: {many} of the kernel, "
                   f"{equal} of {len(pauses)} checks alike", fontsize=9, loc="left")
    beside_axes(axes)
