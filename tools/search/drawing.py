"""The picture of a sweep: numbers of its runs over the parameter."""
from __future__ import annotations

from collections.abc import Sequence
from typing import Any

from .editing import Parameter
from .running import Measured

WIDTH, HEIGHT, DOTS_AN_INCH = 11, 10.5, 100
PAUSES, PAGES, COUNT, BOUND, DISTANCE = "#d9822b", "#3d8f4f", "#1f4e9c", "#b3202c", "#8a5bb5"
WIDE = 20
"""Where the greatest value is more than so many times the least, the parameter is drawn by its logarithm."""


def compose(title: str, of: Parameter, values: Sequence[int], runs: Sequence[Measured], forecasts: int = 0) -> Any:
    """The figure, some of whose runs are told by forecasts."""
    from matplotlib.figure import Figure

    figure = Figure(figsize=(WIDTH, HEIGHT), layout="constrained")
    pauses, paused, pages, counts, distance = figure.subplots(5, 1, sharex=True)
    line(pauses, values, [it.pauses for it in runs], PAUSES, "pauses")
    line(paused, values, [1000 * it.paused / max(it.ticks, 1) for it in runs], PAUSES, "ticks paused a second,\nof all tasks")
    line(pages, values, [it.throughput for it in runs], PAGES, "pages completed\na second")
    line(counts, values, [it.greatest for it in runs], COUNT, "pages", label="greatest count")
    counts.plot(values, [it.bound for it in runs], joined(values, "--"), color=BOUND, markersize=4, linewidth=1.0, label="bound")
    counts.set_ylim(0, 1.05 * max(it.bound for it in runs))
    counts.legend(loc="center left", bbox_to_anchor=(1.0, 0.5), fontsize=8, frameon=False)
    line(distance, values, [it.distance for it in runs], DISTANCE, "least distance\nto the bound, pages")
    told = f", {forecasts} of them by a forecast" if forecasts else ""
    figure.suptitle(f"{title}: {of.name} over {len(values)} values{told}")
    distance.set_xlabel(f"{of.name}, {of.unit}")
    if min(values) > 0 and max(values) > WIDE * min(values):
        distance.set_xscale("log")
    if len(values) <= 12:
        distance.set_xticks(list(values), [str(value) for value in values])
        distance.minorticks_off()
    return figure


FEW = 3
"""So many values or fewer stand as dots: a line would say what lies between them."""


def joined(values: Sequence[int], style: str = "-") -> str:
    """How values are drawn: as dots, and where there are more than a few with a line through them."""
    return f"o{style}" if len(values) > FEW else "o"


def line(axes: Any, values: Sequence[int], heights: Sequence[float], color: str, name: str, label: str | None = None) -> None:
    """One number over the parameter."""
    axes.plot(values, heights, joined(values), color=color, markersize=4, linewidth=1.2, label=label)
    axes.set_ylabel(name)
    axes.ticklabel_format(axis="y", style="plain", useOffset=False)
    axes.set_ylim(0, 1.05 * max(max(heights), 1))
