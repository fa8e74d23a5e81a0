"""The pictures of a study: lines over one variable, a map over two. What is drawn is the median over repeats, with its spread."""
from __future__ import annotations

from typing import Any

from search.drawing import joined

from .spread import Spread, spreads
from .table import Table

WIDTH, ROW, MAP, DOTS_AN_INCH = 9, 2.1, 3.1, 100
COLORS = ("#1f4e9c", "#d9822b", "#3d8f4f", "#8a5bb5", "#b3202c", "#0f7b7d", "#8c5a2b", "#6b705c")
WIDE = 20
"""Where the greatest value is more than so many times the least, the variable is drawn by its logarithm."""

MOST_TICKS, MOST_TOLD = 12, 80
"""Values that an axis names, and fields of a map that tell their number."""

NAMES = {
    "pauses": "pauses", "paused_ticks": "ticks paused,\nof all tasks", "longest_pause_ticks": "longest pause,\nticks", "waits": "waits",
    "pages_a_second": "pages completed\na second", "greatest_count": "greatest count,\npages", "bound": "bound, pages",
    "least_distance": "least distance\nto the bound, pages", "ticks": "ticks in all", "seconds": "seconds of the run",
}


def lines(table: Table, columns: list[str], title: str) -> Any:
    """A part for each column: a line for each trace, and around it what the repeats reach."""
    from matplotlib.figure import Figure

    figure = Figure(figsize=(WIDTH, 0.8 + ROW * len(columns)), layout="constrained")
    parts = figure.subplots(len(columns), 1, sharex=True, squeeze=False)[:, 0]
    for part, column in zip(parts, columns):
        for at, trace in enumerate(table.traces()):
            draw_line(part, spreads(table, trace, column), COLORS[at % len(COLORS)], trace)
        part.set_ylabel(NAMES.get(column, column))
        part.ticklabel_format(axis="y", style="plain", useOffset=False)
        part.set_ylim(bottom=min(0, part.get_ylim()[0]))
    values = table.values(table.variables[0])
    parts[-1].set_xlabel(table.variables[0])
    if min(values) > 0 and max(values) > WIDE * min(values):
        parts[-1].set_xscale("log")
    if len(values) <= MOST_TICKS:
        parts[-1].set_xticks(values, [str(value) for value in values])
        parts[-1].minorticks_off()
    if len(table.traces()) > 1:
        parts[0].legend(loc="center left", bbox_to_anchor=(1.0, 0.5), fontsize=8, frameon=False)
    figure.suptitle(title)
    return figure


def draw_line(part: Any, of: dict[tuple[int, ...], Spread], color: str, trace: str) -> None:
    """The median over the variable, and the spread behind it."""
    settings = sorted(of)
    values = [setting[0] for setting in settings]
    part.plot(values, [of[setting].middle for setting in settings], joined(values), color=color, markersize=3, linewidth=1.2, label=trace)
    if any(of[setting].width for setting in settings):
        part.fill_between(values, [of[setting].least for setting in settings], [of[setting].greatest for setting in settings],
                          color=color, alpha=0.2, linewidth=0)


def maps(table: Table, trace: str, columns: list[str], title: str) -> Any:
    """A map for each column of a trace, the first variable from left to right; below it that of the spread, where repeats differ."""
    from matplotlib.figure import Figure

    found = [spreads(table, trace, column) for column in columns]
    is_spread = any(it.width for of in found for it in of.values())
    figure = Figure(figsize=(1 + MAP * len(columns), 0.6 + MAP * (0.85 + 0.85 * is_spread)), layout="constrained")
    parts = figure.subplots(1 + is_spread, len(columns), squeeze=False)
    for at, (column, of) in enumerate(zip(columns, found)):
        name = NAMES.get(column, column).replace("\n", " ")
        draw_map(figure, parts[0][at], table, {setting: it.middle for setting, it in of.items()}, name)
        if is_spread:
            draw_map(figure, parts[1][at], table, {setting: it.width for setting, it in of.items()}, "greatest less least of the repeats")
    figure.suptitle(title)
    return figure


def draw_map(figure: Any, part: Any, table: Table, heights: dict[tuple[int, ...], float], name: str) -> None:
    """A field for each pair of values. One that wasn't run is left white."""
    across, up = (table.values(variable) for variable in table.variables)
    fields = [[heights.get((x, y), float("nan")) for x in across] for y in up]
    image = part.imshow(fields, origin="lower", aspect="auto", cmap="viridis")
    figure.colorbar(image, ax=part)
    part.set_title(name, fontsize=9)
    part.set_xlabel(table.variables[0], fontsize=8)
    part.set_ylabel(table.variables[1], fontsize=8)
    for name_ticks, values in ((part.set_xticks, across), (part.set_yticks, up)):
        step = -(-len(values) // MOST_TICKS)
        name_ticks(range(0, len(values), step), [str(value) for value in values[::step]], fontsize=7)
    if len(across) * len(up) <= MOST_TOLD:
        tell_fields(part, fields)


def tell_fields(part: Any, fields: list[list[float]]) -> None:
    """The number of each field, in a color that is seen on it."""
    numbers = [value for line in fields for value in line if value == value]
    middle = (min(numbers) + max(numbers)) / 2
    for y, line in enumerate(fields):
        for x, value in enumerate(line):
            if value == value:
                part.text(x, y, f"{value:.0f}", ha="center", va="center", fontsize=6, color="white" if value <= middle else "black")
