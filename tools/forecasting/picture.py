"""A picture of a forecast: the counts of each domain between its limits, the rate limits of all contexts, and how each task was paused."""
from __future__ import annotations

from typing import Any

from journals.picture import (
    BACKGROUND, BOUND, COUNT, DOTS_AN_INCH, FREERUN, HARD, MOST_NAMED_TASKS, PAUSES, ROW, SETPOINT, THRESHOLD, WIDTH, draw_rates, held, named, percent,
    scale_pages, undated,
)
from journals.events import Decision

from .figures import SECOND, Figures
from .scene import ForecastScene, PausedParts

MOST = "#7fa6d9"
"""The greatest counts, in a lighter colour than the counts."""


def draw(scene: ForecastScene, figures: Figures, title: str, path: str) -> None:
    """Draws it into a file, of the format that the file's name says."""
    import matplotlib

    matplotlib.rcParams["svg.hashsalt"] = "wb"
    compose(scene, figures, title).savefig(path, dpi=DOTS_AN_INCH, metadata=undated(path))


def compose(scene: ForecastScene, figures: Figures, title: str) -> Any:
    """The figure."""
    from matplotlib.figure import Figure

    tasks = sorted(scene.paused)
    heights = [3.2] * len(scene.domains) + [2.0] * bool(scene.rate_limits) + [min(max(1.2, 0.3 * len(tasks)), 5)] * bool(tasks)
    figure = Figure(figsize=(WIDTH, 0.9 + sum(heights)), layout="constrained")
    axes = list(figure.subplots(len(heights), 1, sharex=True, squeeze=False, height_ratios=heights)[:, 0])
    for number, part in enumerate(axes[:len(scene.domains)]):
        draw_counts(scene, number, part)
    rest = axes[len(scene.domains):]
    if scene.rate_limits:
        draw_rates(scene, 0, rest.pop(0))  # type: ignore[arg-type]
    if tasks:
        draw_paused(scene, figures, tasks, rest.pop(0))
    for part in axes:
        part.spines[["top", "right"]].set_visible(False)
        if part.get_legend_handles_labels()[0]:
            part.legend(loc="center left", bbox_to_anchor=(1.0, 0.5), fontsize=8, frameon=False)
    figure.suptitle(f"{title}: a forecast by intervals of {scene.every} ms", fontsize=11)
    axes[-1].set_xlabel("seconds")
    axes[-1].set_xlim(0, max(scene.last, scene.place(scene.every)) * 1.01)
    return figure


def draw_counts(scene: ForecastScene, number: int, axes: Any) -> None:
    """The counts and the bound of a domain, and its limits; thresholds where the trace tells them."""
    domain = scene.domains[number]
    held(axes, domain.bounds, scene, "bound", color=BOUND, linewidth=1.7, zorder=2)  # type: ignore[arg-type]
    held(axes, domain.hard, scene, "hard limit", color=HARD, linewidth=4.5, solid_capstyle="butt", zorder=1.5)  # type: ignore[arg-type]
    if number == 0:
        draw_thresholds(scene, axes)
        held(axes, domain.setpoint, scene, "setpoint", color=SETPOINT, linewidth=1.1, linestyle="-.")  # type: ignore[arg-type]
    held(axes, domain.most, scene, "most in an interval", color=MOST, linewidth=1.0, zorder=2.8)  # type: ignore[arg-type]
    held(axes, domain.counts, scene, "count at its end", color=COUNT, linewidth=1.1, zorder=3)  # type: ignore[arg-type]
    axes.set_title(f"domain {number} ({'a cgroup' if number else 'global'})", fontsize=9, loc="left")
    scale_pages(axes, max(domain.most.points()[1], default=0))


def draw_thresholds(scene: ForecastScene, axes: Any) -> None:
    """Threshold, freerun and background threshold of the global domain."""
    places, *curves = zip(*scene.thresholds())
    looks = ((THRESHOLD, (0, (5, 4)), "threshold"), (FREERUN, "-", "freerun"), (BACKGROUND, ":", "background threshold"))
    for values, (color, style, name) in zip(curves, looks):
        axes.step([*places, max(scene.last, places[-1])], [*values, values[-1]], where="post", color=color, linestyle=style, linewidth=1.1, zorder=2.5,
                  label=named(name, list(values)))


def draw_paused(scene: ForecastScene, figures: Figures, tasks: list[int], axes: Any) -> None:
    """A row for each task, and in it a bar for each part of time: as high as the part of it that is paused."""
    from matplotlib.collections import PolyCollection

    bars = [bar for row, task in enumerate(tasks) for bar in bars_of(scene, scene.paused[task], row + ROW / 2)]
    color = PAUSES[Decision.WAIT]
    axes.add_collection(PolyCollection(bars, facecolors=color, edgecolors=color, linewidths=0.2, label="paused"))
    axes.set_ylim(len(tasks) - 0.4, -0.6)
    if len(tasks) <= MOST_NAMED_TASKS:
        axes.set_yticks(range(len(tasks)), [f"task {task}, paused {percent(share_of(figures, scene, task))}" for task in tasks], fontsize=8)
    else:
        axes.set_ylabel(f"{len(tasks)} tasks, {tasks[0]} to {tasks[-1]}")
        axes.set_yticks([])
    axes.set_title("part of the time paused, by where pauses begin: a whole height is all of it", fontsize=9, loc="left")


def share_of(figures: Figures, scene: ForecastScene, task: int) -> float:
    """The part of its time that a task is paused."""
    it = figures.tasks[task]
    return it.ticks / max(it.until * scene.every, 1)


def bars_of(scene: ForecastScene, paused: PausedParts, foot: float) -> list[list[tuple[float, float]]]:
    """The bars of a task, which stand on a foot where rows are numbered downwards."""
    width = paused.width * scene.every
    found = []
    for part, ticks in sorted(paused.parts.items()):
        begin, end, top = part * width / SECOND, (part + 1) * width / SECOND, foot - ROW * min(ticks / width, 1)
        if ticks:
            found.append([(begin, foot), (begin, top), (end, top), (end, foot)])
    return found
