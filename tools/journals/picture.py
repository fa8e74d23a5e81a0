"""A picture of a domain: its count between its limits, the inodes that wait for their age, the pauses of its tasks, the rates of its
contexts.

All parts have one axis from left to right, time or steps, and one colour means one thing in all of them. A part of which the journal
says nothing isn't drawn.
"""
from __future__ import annotations

from collections.abc import Callable
from importlib.util import find_spec
from typing import Any

from program.errors import NoMatplotlib

from .bound import fixed_bound
from .events import Decision
from .scene import DomainScene, Scene
from .sentences import counted
from .series import Bar, Series

WIDTH, DOTS_AN_INCH = 11, 100
DOT = 72 / DOTS_AN_INCH
"""The width of a dot, in the unit of line widths."""

AXIS_DOTS = 800
"""About how many dots the axis from left to right has."""

MOST_NAMED_TASKS, MOST_ON_TWO_LINES = 24, 4
MOST_NAMED_CONTEXTS = 8
ROW = 0.8
"""What the highest bar takes of the height of its row."""

LEAST_HEIGHT = 0.1
"""What the lowest bar takes, so that it is seen."""

DOTS_TO_PART = 2
"""Dots that a pause needs so that a white edge parts it from the next one."""

EVEN = 20
"""Where the greatest is more than so many times the least, there is a log scale."""

FEW = 200
"""Up to so many dots are drawn larger."""

COUNT, BOUND = "#1d4e9e", "#c1121f"
HARD, THRESHOLD, SETPOINT, FREERUN, BACKGROUND = "#f7b267", "#222222", "#1b7837", "#7fbf7b", "#8a8a8a"
PAUSES = {Decision.GO: "#b9a3dd", Decision.EXEMPT: "#e255a1", Decision.WAIT: "#5a2a8a"}
CONTEXTS = ("#0f7b7d", "#d8b400", "#8c5a2b", "#4fb3e8", "#6b705c", "#e5989b", "#003049", "#3d5a1a")

Part = Callable[[Any], None]
"""Draws a part of the picture on axes."""


def is_there() -> bool:
    """Whether matplotlib is installed."""
    return find_spec("matplotlib") is not None


def demand(otherwise: str = "") -> None:
    """Raises `NoMatplotlib` where it isn't; `otherwise` is what goes without it."""
    if not is_there():
        raise NoMatplotlib(otherwise)


def draw(scene: Scene, domain: int, title: str, path: str) -> None:
    """Draws the picture of one domain into a file, of the format that the file's name says."""
    import matplotlib

    matplotlib.rcParams["svg.hashsalt"] = "wb"
    compose(scene, domain, title).savefig(path, dpi=DOTS_AN_INCH, metadata=undated(path))


def undated(path: str) -> dict[str, None]:
    """What keeps the day out of a picture, so that one journal always gives one picture."""
    return {} if path.endswith(".png") else {"Date": None} if path.endswith(".svg") else {"CreationDate": None}


def compose(scene: Scene, domain: int, title: str) -> Any:
    """The figure of one domain."""
    from matplotlib.figure import Figure
    from matplotlib.ticker import MaxNLocator

    parts = parts_of(scene, domain)
    heights = [height for height, _ in parts]
    figure = Figure(figsize=(WIDTH, 0.9 + sum(heights)), layout="constrained")
    for axes, (_, part) in zip(figure.subplots(len(parts), 1, sharex=True, squeeze=False, height_ratios=heights)[:, 0], parts):
        part(axes)
        axes.spines[["top", "right"]].set_visible(False)
        if axes.get_legend_handles_labels()[0]:
            axes.legend(loc="center left", bbox_to_anchor=(1.0, 0.5), fontsize=8, frameon=False)
    figure.suptitle(f"{title}: domain {domain} ({'a cgroup' if domain else 'global'}), ending: {scene.ending}", fontsize=11)
    axes.set_xlabel("steps" if scene.is_over_steps else "time (ticks of 1 ms)")
    axes.xaxis.set_major_locator(MaxNLocator(nbins=9, integer=True))
    axes.ticklabel_format(axis="x", style="plain", useOffset=False)
    axes.set_xlim(scene.first, scene.first + (scene.last - scene.first) * 1.01)
    return figure


def parts_of(scene: Scene, domain: int) -> list[tuple[float, Part]]:
    """The parts of which the journal says something, from the top, with their heights in inches."""
    tasks = tasks_of(scene, domain)
    parts: list[tuple[float, Part]] = [(3.2, lambda axes: draw_counts(scene, domain, axes))]
    for context in own_of(scene, domain):
        parts.append((1.6, lambda axes, context=context: draw_own(scene, domain, context, axes)))
    if waiting_of(scene, domain):
        parts.append((1.4, lambda axes: draw_waiting(scene, domain, axes)))
    if pauses_of(scene, domain):
        parts.append((min(max(1.2, 0.24 * len(tasks)), 5), lambda axes: draw_pauses(scene, domain, tasks, axes)))
    if contexts_of(scene, domain):
        parts.append((2, lambda axes: draw_rates(scene, domain, axes)))
    return parts


def tasks_of(scene: Scene, domain: int) -> list[int]:
    """The tasks that write pages of a domain."""
    contexts = scene.trace.contexts_of(domain)
    return sorted({task for task, context in scene.trace.writers() if context in contexts})


def contexts_of(scene: Scene, domain: int) -> list[int]:
    """The contexts of a domain that have estimates."""
    return [context for context in scene.trace.contexts_of(domain) if context in scene.rate_limits]


def own_of(scene: Scene, domain: int) -> list[int]:
    """The contexts of strict devices in a domain that were checked."""
    return sorted(context for context, of in scene.own if of == domain)


def waiting_of(scene: Scene, domain: int) -> list[int]:
    """The flushers of ageing devices that noticed inodes of a domain."""
    return sorted(flusher for flusher, of in scene.waiting if of == domain)


def pauses_of(scene: Scene, domain: int) -> dict[Decision, list[tuple[int, Bar]]]:
    """The pauses in contexts of a domain, each with its task, by what was decided."""
    found: dict[Decision, list[tuple[int, Bar]]] = {}
    for (task, of, decision), bars in sorted(scene.pauses.items(), key=lambda item: item[0][:2]):
        if domain in (0, of):
            found.setdefault(decision, []).extend((task, bar) for bar in bars.all())
    return {decision: found[decision] for decision in Decision if decision in found}


# ---- pages


def draw_counts(scene: Scene, domain: int, axes: Any) -> None:
    """The count, the bound and the limits, from the highest to the lowest. Without steps, what checks read, and the bound by its formula.

    Where limits have one value, each is seen: the hard limit is broad, the bound narrower, and the threshold is dashed over both.
    """
    seen = scene.domains[domain]
    draw_bound(scene, domain, axes)
    held(axes, seen.hard, scene, "hard limit", color=HARD, linewidth=4.5, solid_capstyle="butt", zorder=1.5)
    held(axes, seen.thresh, scene, "threshold", color=THRESHOLD, linewidth=1.1, linestyle=(0, (5, 4)), zorder=2.5)
    held(axes, seen.setpoint, scene, "setpoint", color=SETPOINT, linewidth=1.1, linestyle="-.")
    held(axes, seen.freerun, scene, "freerun", color=FREERUN, linewidth=1.3)
    held(axes, seen.background, scene, "background threshold", color=BACKGROUND, linewidth=1.1, linestyle=":")
    curve = seen.counts if scene.steps else seen.reads
    places, values = curve.points()
    if scene.steps:
        axes.step([*places, scene.last], [*values, values[-1]], where="post", color=COUNT, linewidth=1.1, zorder=3,
                  label=f"exact count: at most {max(values)}")
        mark_nearest(scene, seen, axes)
    elif values:
        axes.plot([scene.place(place) for place in places], values, ".", color=COUNT, markersize=3 if len(values) > FEW else 7, zorder=3,
                  label=f"count that checks read: at most {max(values)}")
    scale_pages(axes, max(values, default=0))


def draw_bound(scene: Scene, domain: int, axes: Any) -> None:
    """The bound as steps tell it, or by its formula."""
    seen = scene.domains[domain]
    if scene.steps:
        places, values = seen.bounds.points()
        axes.step([*places, scene.last], [*values, values[-1]], where="post", color=BOUND, linewidth=1.7, zorder=2,
                  label=named("bound", values))
    else:
        bound = seen.greatest_hard + fixed_bound(scene.trace, domain)
        axes.axhline(bound, color=BOUND, linewidth=1.7, zorder=2, label=f"bound by its formula: {bound}")


def scale_pages(axes: Any, greatest: int) -> None:
    """Pages from 0 on, with a log scale where the count would lie on the ground."""
    top = axes.dataLim.y1
    if top > EVEN * max(greatest, 1):
        axes.set_yscale("symlog", linthresh=1, linscale=0.3)
        axes.yaxis.set_major_formatter(plain_number)
        axes.set_ylim(0, 2 * top)
        axes.set_ylabel("pages (log scale)")
    else:
        axes.ticklabel_format(axis="y", style="plain", useOffset=False)
        axes.set_ylim(0, 1.06 * top)
        axes.set_ylabel("pages")


def mark_nearest(scene: Scene, seen: DomainScene, axes: Any) -> None:
    """A mark where the count was nearest to the bound, on the axis that is drawn."""
    near = seen.nearest
    if near is None:
        return
    axes.plot([near.place, near.place], [near.count, near.bound], color=BOUND, linewidth=0.9, linestyle=":", zorder=3)
    axes.plot([near.place], [near.count], "o", color=COUNT, markersize=4.5, zorder=4)
    where = "step" if scene.is_over_steps else "time"
    axes.set_title(f"nearest to the bound at {where} {near.place}: {near.count} of {near.bound} pages, {near.distance} below",
                   fontsize=9, loc="left")


# ---- a context of a strict device


def draw_own(scene: Scene, domain: int, context: int, axes: Any) -> None:
    """The count that checks read of a context, between its own threshold and its own freerun."""
    own = scene.own[context, domain]
    held(axes, own.thresh, scene, "own threshold", color=THRESHOLD, linewidth=1.1, linestyle=(0, (5, 4)), zorder=2.5)
    held(axes, own.freerun, scene, "own freerun", color=FREERUN, linewidth=1.3)
    places, values = own.reads.points()
    axes.plot([scene.place(place) for place in places], values, ".", color=COUNT, markersize=3 if len(values) > FEW else 7, zorder=3,
              label=f"count that checks read: at most {max(values)}")
    axes.set_title(f"context {context}, of a strict device", fontsize=9, loc="left")
    axes.set_ylim(0, 1.1 * axes.dataLim.y1 + 1)
    axes.set_ylabel("pages")


# ---- inodes that wait for their age


def draw_waiting(scene: Scene, domain: int, axes: Any) -> None:
    """How many inodes wait in the list of each flusher."""
    most = 1
    for flusher in waiting_of(scene, domain):
        curve = scene.waiting[flusher, domain]
        most = max(most, *curve.points()[1])
        held(axes, curve, scene, f"list of flusher {flusher}", color=CONTEXTS[flusher % len(CONTEXTS)], linewidth=1.1)
    axes.set_title("inodes that wait for their age", fontsize=9, loc="left")
    axes.set_ylim(0, 1.1 * most)
    axes.set_ylabel("inodes")


# ---- pauses


def draw_pauses(scene: Scene, domain: int, tasks: list[int], axes: Any) -> None:
    """A row for each task, and in it a bar for each pause of it in a context of the domain: as high as it is long."""
    from matplotlib.collections import PolyCollection

    rows = {task: row for row, task in enumerate(tasks)}
    shown = {decision: [(rows[task], bar) for task, bar in bars if task in rows] for decision, bars in pauses_of(scene, domain).items()}
    longest = max(bar.height for bars in shown.values() for _, bar in bars)
    dots = AXIS_DOTS / max(scene.last - scene.first, 1)
    for decision, placed in shown.items():
        color = PAUSES.get(decision, COUNT)
        is_parted = [(bar.end - bar.begin) * dots >= DOTS_TO_PART for _, bar in placed]
        axes.add_collection(PolyCollection(
            [rectangle(row + ROW / 2, bar, max(ROW * bar.height / longest, LEAST_HEIGHT)) for row, bar in placed], facecolors=color,
            edgecolors=["white" if parted else color for parted in is_parted], linewidths=[0.4 if parted else 1.1 for parted in is_parted],
            label=f"paused after '{decision.value}'"))
    axes.set_ylim(len(tasks) - 0.4, -0.6)
    name_tasks(scene, domain, tasks, axes)
    scale = axes.secondary_yaxis("right")
    scale.set_yticks([ROW / 2, 0, -ROW / 2], ["0", f"{longest / 2:g}", f"{longest}"], fontsize=7)
    scale.spines["right"].set_visible(False)
    scale.tick_params(axis="y", direction="in", pad=-22)
    unit = counted(longest, "step") if scene.is_over_steps else f"{counted(longest, 'tick')}, or {longest} ms"
    axes.set_title(f"a bar for each pause, as high as it is long: the highest is {unit}", fontsize=9, loc="left")


def name_tasks(scene: Scene, domain: int, tasks: list[int], axes: Any) -> None:
    """The names of the rows, where there is room."""
    if len(tasks) <= MOST_NAMED_TASKS:
        between = "\n" if len(tasks) <= MOST_ON_TWO_LINES else ", "
        axes.set_yticks(range(len(tasks)), [f"task {task}{between}paused {percent(scene.paused(task, domain))}" for task in tasks],
                        fontsize=8)
    else:
        axes.set_ylabel(f"{len(tasks)} tasks, {tasks[0]} to {tasks[-1]}")
        axes.set_yticks([])


def percent(share: float) -> str:
    """A share, which is only 0 % where it is nothing."""
    return "<1 %" if 0 < share < 0.01 else f"{100 * share:.0f} %"


def rectangle(foot: float, bar: Bar, height: float) -> list[tuple[float, float]]:
    """The corners of a bar that stands on a foot, where rows are numbered downwards."""
    return [(bar.begin, foot), (bar.begin, foot - height), (bar.end, foot - height), (bar.end, foot)]


# ---- rates


def draw_rates(scene: Scene, domain: int, axes: Any) -> None:
    """Rate limit and average bandwidth of each context of the domain. Where those of two are the same, the first is the broader line."""
    shown: list[int] = []
    contexts = contexts_of(scene, domain)
    for place, context in enumerate(contexts):
        color = CONTEXTS[context % len(CONTEXTS)]
        width = (2 + 4 * min(len(contexts) - 1 - place, 2)) * DOT
        is_named = place < MOST_NAMED_CONTEXTS
        for curve, name, look in ((scene.rate_limits[context], "rate limit", "-"), (scene.bandwidths[context], "bandwidth", ":")):
            held(axes, curve, scene, f"{name}, context {context}" if is_named else "", color=color, linewidth=width, linestyle=look)
            shown += curve.points()[1]
    least, greatest = max(min(shown), 1), max(shown)
    if greatest > EVEN * least:
        axes.set_yscale("log")
        axes.yaxis.set_major_formatter(plain_number)
        axes.set_ylim(least / 2, 2 * greatest)
        axes.set_ylabel("pages/s (log scale)")
    else:
        axes.ticklabel_format(axis="y", style="plain", useOffset=False)
        axes.set_ylim(0, 1.1 * greatest + 1)
        axes.set_ylabel("pages/s")


# ---- what several parts use


def held(axes: Any, curve: Series, scene: Scene, name: str, **look: Any) -> None:
    """A curve by moments, each value held until the next, and the last one to the end. Its name has its values."""
    moments, values = curve.points()
    if not moments:
        return
    places = [scene.place(moment) for moment in moments]
    axes.step([*places, max(scene.last, places[-1])], [*values, values[-1]], where="post",
              label=named(name, values) if name else None, **look)


def named(name: str, values: list[int]) -> str:
    """A name with the values that a curve takes."""
    least, greatest = min(values), max(values)
    return f"{name}: {least}" if least == greatest else f"{name}: {least} to {greatest}"


def plain_number(value: float, _place: int) -> str:
    """A number of an axis, without an exponent."""
    return f"{value:.10g}"
