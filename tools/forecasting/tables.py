"""What a forecast comes to as a text for people, and as numbers for other programs."""
from __future__ import annotations

from collections.abc import Iterable
from typing import Any

from journals.summary_text import table
from laws.clock import PROFILE

from .figures import SECOND, Figures, TaskFigures
from .reader import ForecastReader


def lines(figures: Figures, reader: ForecastReader) -> Iterable[str]:
    """Tables with a line for each task, domain and context."""
    every, totals = reader.every, reader.totals
    fresh, done = (totals.fresh, totals.done) if totals else (0, 0)
    yield f"ending: {reader.ending}, intervals of {every} ticks, {figures.intervals} of them: {seconds(figures.intervals, every):.1f} s"
    yield f"tasks were at work until {seconds(figures.until, every):.1f} s: rates and means are those of this time"
    yield f"totals: {fresh} pages dirtied, {done} cleaned"
    yield "units: pages; pauses in ticks, 1000 a second"
    yield ""
    yield from task_table(figures, every)
    yield ""
    yield from domain_table(figures)
    yield ""
    yield from context_table(figures, every)


def seconds(intervals: int, every: int) -> float:
    """How long so many intervals are."""
    return intervals * every / SECOND


def task_table(figures: Figures, every: int) -> Iterable[str]:
    """A line for each task. Its rates are those of its own time."""
    head = ["task", "until, s", "pages", "pages/s", "checks", "pauses", "pauses/s", "mean pause", "longest pause", "paused, %"]
    rows = []
    for number, it in enumerate(figures.tasks):
        of = of_task(it, every)
        rows.append([number, f"{of['seconds']:.1f}", it.pages, f"{of['pages a second']:.1f}", it.checks, it.pauses, f"{of['pauses a second']:.2f}",
                     f"{of['mean pause']:.1f}", it.longest, f"{100 * of['paused']:.1f}"])
    return table(head, rows)


def of_task(it: TaskFigures, every: int) -> dict[str, float]:
    """A task's rates and means."""
    time = seconds(it.until, every)
    whole = max(time, every / SECOND)
    return {"seconds": time, "pages a second": it.pages / whole, "pauses a second": it.pauses / whole, "mean pause": it.ticks / max(it.pauses, 1),
            "paused": it.ticks / SECOND / whole}


def domain_table(figures: Figures) -> Iterable[str]:
    """A line for each domain. The mean is that of the counts at the ends of intervals."""
    rows: list[list[Any]] = [[number, f"{it.mean:.0f}", it.most, it.hard, it.bound, "none" if it.distance is None else it.distance]
                             for number, it in enumerate(figures.domains)]
    return table(["domain", "mean count", "most", "hard limit", "bound", "least distance"], rows)


def context_table(figures: Figures, every: int) -> Iterable[str]:
    """A line for each context. The mean is that of the rate limits at the ends of intervals."""
    time = max(seconds(figures.until, every), every / SECOND)
    rows: list[list[Any]] = [[number, f"{it.dirtied / time:.1f}", f"{it.written / time:.1f}", it.average, f"{it.mean_rate_limit:.0f}", it.rate_limit]
                             for number, it in enumerate(figures.contexts)]
    return table(["context", "dirtied/s", "written/s", "average bandwidth", "mean rate limit", "rate limit"], rows)


def as_json(figures: Figures, reader: ForecastReader) -> dict[str, Any]:
    """The numbers of the tables. Times are in ticks unless their name says seconds, the rest in pages."""
    every, totals = reader.every, reader.totals
    time = max(seconds(figures.until, every), every / SECOND)
    return {
        "ending": reader.ending, "every": every, "intervals": figures.intervals, "until": figures.until, "ticks_a_second": PROFILE.second,
        "totals": {"fresh": totals.fresh, "done": totals.done} if totals else None,
        "tasks": [{"task": number, **it.__dict__, **{name.replace(" ", "_"): value for name, value in of_task(it, every).items()}}
                  for number, it in enumerate(figures.tasks)],
        "domains": [{"domain": number, "mean": it.mean, "most": it.most, "hard": it.hard, "bound": it.bound, "least_distance": it.distance}
                    for number, it in enumerate(figures.domains)],
        "contexts": [{"context": number, "dirtied_a_second": it.dirtied / time, "written_a_second": it.written / time, "average": it.average,
                      "mean_rate_limit": it.mean_rate_limit, "rate_limit": it.rate_limit} for number, it in enumerate(figures.contexts)]}
