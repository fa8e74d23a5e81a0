"""A picture of what a kernel did and of what a replay did: the level of pages, the rate limits, and each pause, in two colours."""
from __future__ import annotations

from collections.abc import Sequence
from typing import Any

from .beside import Span
from .drawing import DOTS_AN_INCH, FREERUN, KERNEL, LAWS, LIMIT, SETPOINT, WIDTH, beside_axes

__all__ = ["DOTS_AN_INCH", "compose"]

COLORS = (KERNEL, LAWS)
ROW = 0.8
STYLES = ("-", "--", ":", "-.")


def compose(spans: Sequence[Span], title: str) -> Any:
    """The figure."""
    from matplotlib.figure import Figure

    tasks = [(span, writer) for span in spans for writer in span.writers]
    height = min(max(1.6, 0.4 * len(tasks)), 6)
    figure = Figure(figsize=(WIDTH, 6.4 + height), layout="constrained")
    levels, rates, pauses = figure.subplots(3, 1, sharex=True, height_ratios=[3, 2.4, height])
    draw_levels(spans, levels)
    draw_rates(spans, rates)
    draw_pauses(tasks, spans, pauses)
    figure.suptitle(f"{title}: what the kernel did, and a replay of a machine like it")
    pauses.set_xlabel("seconds from the first check that isn't free")
    pauses.set_xlim(0, max(span.seconds for span in spans) * 1.01)
    return figure


def draw_levels(spans: Sequence[Span], axes: Any) -> None:
    """The pages of both, and the limits."""
    freerun, setpoint, _, hard = spans[0].limits
    for value, color, name in ((hard, LIMIT, "hard limit"), (setpoint, SETPOINT, "setpoint"), (freerun, FREERUN, "freerun")):
        axes.axhline(value, color=color, linewidth=1.2, label=name)
    for span, color in zip(spans, COLORS):
        axes.step([time for time, _ in span.levels], [pages for _, pages in span.levels], where="post", color=color, linewidth=1.0,
                  label=f"pages, {span.name}")
    axes.set_ylabel("pages of the domain")
    axes.ticklabel_format(axis="y", style="plain", useOffset=False)
    axes.set_ylim(bottom=0)
    beside_axes(axes)


def draw_rates(spans: Sequence[Span], axes: Any) -> None:
    """The rate limits of the disks of both."""
    for span, color in zip(spans, COLORS):
        for style, (disk, points) in zip(STYLES, span.rate_limits.items()):
            times, rates = [*(time for time, _ in points), span.seconds], [*(rate for _, rate in points), points[-1][1]]
            axes.step(times, rates, where="post", color=color, linestyle=style, linewidth=1.2, label=f"rate limit, {span.name}, {disk}")
    axes.set_ylabel("pages a second")
    axes.ticklabel_format(axis="y", style="plain", useOffset=False)
    axes.set_ylim(bottom=0)
    beside_axes(axes)


def draw_pauses(tasks: Sequence[tuple[Span, str]], spans: Sequence[Span], axes: Any) -> None:
    """A row for each writer, and in it each pause: as wide as it is long, and as high as the root of that. Of a forecast it is a bar for each
    interval, as wide as its pauses are long together, for their mean."""
    from matplotlib.collections import PolyCollection

    rows = {(span.name, writer): row for row, (span, writer) in enumerate(tasks)}
    longest = max((length for span in spans for *_, length in span.bars()), default=1.0)
    for span, color in zip(spans, COLORS):
        bars = []
        for task, begin, width, length in span.bars():
            foot = rows[span.name, task] + ROW / 2
            top = foot - ROW * (length / longest) ** 0.5
            bars.append([(begin, foot), (begin, top), (begin + width, top), (begin + width, foot)])
        axes.add_collection(PolyCollection(bars, facecolors=color, edgecolors=color, linewidths=0.2, label=f"pause, {span.name}"))
    axes.set_ylim(len(tasks) - 0.45, -0.55)
    axes.set_yticks(range(len(tasks)), [f"{span.name}, {writer}" for span, writer in tasks], fontsize=8)
    scale = f"{1000 * longest:.0f} ms are a whole height, {250 * longest:.0f} ms a half"
    axes.set_title(f"pauses, as wide as they are long; {scale}", fontsize=9, loc="left")
    beside_axes(axes)
