"""The report of a trace and its journal: a part for the pages of each domain, for each context of a strict device, for the inodes that
wait, for the pauses of all tasks and for the rates of all contexts.

The journal is read twice, since a check names an estimate that another CPU's part may tell later on.
"""
from __future__ import annotations

from collections.abc import Iterator
from dataclasses import dataclass, replace

from journals import events
from journals.bound import fixed_bound
from journals.events import Decision, Event
from journals.picture import EVEN, percent
from journals.reader import Reader
from journals.reasons import Rates, Reason, Reasons, rates_of
from journals.scene import Scene
from journals.sentences import Sentences, counted
from journals.series import Series
from journals.summary import Summary
from journals.summary_text import lines as summary_lines
from journals.trace import Trace
from laws.clock import PROFILE
from program.errors import OtherWords

from .causes import Causes
from .content import Axis, Bars, CheckText, Dots, Line, Panel, Report, put_together
from .journal_causes import cause_of
from .thinning import CHECK_RULE, CURVE_RULE, MOST_BINS, Peaks, Thinned

ROW, LEAST_HEIGHT = 0.8, 0.08
"""What the highest and the lowest bar take of the height of a row."""

FOOT = 0.4
"""How far below its middle the foot of a row lies, where rows are numbered downwards."""

DASHES = (("hard limit", "hard", "solid", 4.0), ("threshold", "threshold", "dash", 1.2), ("setpoint", "setpoint", "dashdot", 1.2),
          ("freerun", "freerun", "solid", 1.3), ("background threshold", "background", "dot", 1.3))
"""Limits of a domain: name, role, dash and width."""

MOMENTS = ("A step has no moment in a journal: it stands at the latest moment that had come by then, as the journal tells it. The exact "
           "count and the bound are those of steps; what checks read is an older or a smaller number.")


@dataclass(frozen=True)
class SeenCheck:
    """A check of the journal: its line, what it read of domains and of its context, and what is behind it."""

    line: int
    event: events.Check
    reads: tuple[tuple[int, int], ...]
    pages: int
    reason: Reason

    def read_of(self, domain: int) -> int | None:
        """The count that it read of a domain."""
        return dict(self.reads).get(domain)


class SeenChecks:
    """Takes the events of a journal in turn, and keeps its checks, thinned where they are many."""

    def __init__(self, trace: Trace, rates: Rates) -> None:
        self.kept: Peaks[SeenCheck] = Peaks([lambda it: it.event.pause, lambda it: it.reads[0][1]])
        self.causes = Causes("ticks")
        self._reasons = Reasons(trace, rates)
        self._reads: list[tuple[int, int]] = []
        self._pages = 0

    def take(self, line: int, event: Event) -> None:
        """The event of a line."""
        reason = self._reasons.reason(event)
        if isinstance(event, events.Read):
            self._reads.append((event.domain, event.count))
        elif isinstance(event, events.Count):
            self._pages = event.count
        elif isinstance(event, events.Check):
            assert reason
            seen = SeenCheck(line, event, tuple(self._reads), self._pages, reason)
            self._reads.clear()
            self.causes.take(f"task {event.task}", cause_of(event.decision, reason), event.pause)
            self.kept.add((event.task, event.decision), event.now, seen)


def report_of(trace: Trace, path: str, title: str) -> Report:
    """The report. Raises `OtherWords` where the axis would have no length."""
    scene, summary = Scene(trace, False, Thinned), Summary(trace)
    checks = SeenChecks(trace, rates_of(entries_of(Reader(path, trace))))
    reader = Reader(path, trace)
    for event in reader.events():
        scene.take(event)
        summary.take(event)
        if not isinstance(event, events.Step):
            checks.take(reader.number, event)
    if scene.last == scene.first:
        raise OtherWords(f"the whole journal is at time {scene.first}: there is nothing to show over time")
    shown, sentences = checks.kept.all(), Sentences(trace)
    return Report(
        title=title, facts=facts_of(summary), axis=Axis("time in ticks; a tick is 1 ms", "ticks", scene.first, scene.last, PROFILE.second),
        panels=list(panels_of(scene, shown)), checks=[text_of(sentences, seen) for seen in shown], tables=list(checks.causes.tables()),
        texts=[("Summary", "\n".join(summary_lines(summary)))], notes=list(notes_of(scene, checks)))


def entries_of(reader: Reader) -> Iterator[Event]:
    """The events before the steps, which have no estimate."""
    for event in reader.events():
        if isinstance(event, events.Steps):
            return
        yield event


def facts_of(summary: Summary) -> list[str]:
    """What the journal is, in short."""
    trace = summary.trace
    ending = summary.ending.value if summary.ending else "none"
    many = {"task": len(trace.tasks), "device": len(trace.devices), "cgroup": len(trace.cgroups), "CPU": trace.cpus}
    return [", ".join(counted(count, thing) for thing, count in many.items() if count), f"ending: {ending}",
            f"{summary.steps} steps" if summary.steps else "a journal without steps", f"latest moment: {summary.latest} ticks"]


def text_of(sentences: Sentences, seen: SeenCheck) -> CheckText:
    """What is said of a check."""
    event = seen.event
    pause = f"{counted(event.pause, 'tick')} ({event.pause * 1000 // PROFILE.second} ms)" if event.pause else "none"
    head = f"task {event.task}, {event.decision.value}, pause: {pause}; at moment {event.now}, line {seen.line} of the journal"
    return CheckText(head, sentences.of(event), list(seen.reason.lines()))


def notes_of(scene: Scene, checks: SeenChecks) -> Iterator[str]:
    """How the report is to be read."""
    if scene.steps:
        yield MOMENTS
    widest = max(series.width for series in all_series(scene) if isinstance(series, Thinned))
    if widest > 1:
        yield CURVE_RULE.format(bins=MOST_BINS, width=f"up to {counted(widest, 'tick')}")
    shown = len(checks.kept.all())
    if checks.kept.width:
        yield CHECK_RULE.format(kept=shown, many=checks.kept.many, width=counted(checks.kept.width, "tick"))
    else:
        yield f"All {checks.kept.many} checks are shown."


def all_series(scene: Scene) -> Iterator[Series]:
    """The curves that are drawn."""
    for domain in scene.domains:
        yield from (domain.counts, domain.bounds, domain.hard, domain.thresh, domain.setpoint, domain.freerun, domain.background)
    for own in scene.own.values():
        yield from (own.thresh, own.freerun)
    for of in (scene.waiting, scene.rate_limits, scene.bandwidths):
        yield from of.values()


# ---- the parts


def panels_of(scene: Scene, shown: list[SeenCheck]) -> Iterator[Panel]:
    """Those of which the journal says something, from the top."""
    for domain in range(scene.trace.domains):
        yield domain_panel(scene, domain, shown)
    for context, domain in sorted(scene.own):
        yield own_panel(scene, context, domain, shown)
    if waiting := sorted(flusher for flusher, domain in scene.waiting if not domain):
        yield Panel("inodes that wait for their age", "inodes", 120, [
            held(scene, scene.waiting[flusher, 0], f"list of flusher {flusher}", of_context(flusher)) for flusher in waiting])
    if shown:
        yield pauses_panel(scene, shown)
    if scene.rate_limits:
        yield rates_panel(scene)


def domain_panel(scene: Scene, domain: int, shown: list[SeenCheck]) -> Panel:
    """The count, the bound, the limits, and what checks read. Without steps there is no exact count, and the bound is that of its
    formula."""
    seen = scene.domains[domain]
    lines = [replace(held(scene, series, name, role), dash=dash, width=width) for (name, role, dash, width), series in zip(
        DASHES, (seen.hard, seen.thresh, seen.setpoint, seen.freerun, seen.background))]
    if scene.steps:
        lines.append(replace(held(scene, seen.bounds, "bound", "bound"), width=1.7))
        lines.append(held(scene, seen.counts, "exact count", "count"))
    else:
        bound = seen.greatest_hard + fixed_bound(scene.trace, domain)
        lines.append(Line("bound by its formula", "bound", [scene.first, scene.last], [bound, bound], width=1.7))
    dots = dots_of("count that checks read", "read", shown, [check.read_of(domain) for check in shown])
    greatest = max((max(line.y) for line in lines if line.name == "exact count"), default=max(dots.y, default=0))
    top = max(max(line.y) for line in lines if line.y)
    name = f"domain {domain}, a cgroup" if domain else "domain 0, the whole machine"
    return Panel(f"pages of {name}", "pages", 270, put_together(lines), [dots] if dots.x else [], is_log=top > EVEN * max(greatest, 1))


def own_panel(scene: Scene, context: int, domain: int, shown: list[SeenCheck]) -> Panel:
    """What checks read of a context of a strict device, between its own threshold and its own freerun."""
    own = scene.own[context, domain]
    lines = [replace(held(scene, own.thresh, "own threshold", "threshold"), dash="dash"),
             held(scene, own.freerun, "own freerun", "freerun")]
    pages = [check.pages if check.event.context == context and check.read_of(domain) is not None else None for check in shown]
    return Panel(f"pages of context {context}, of a strict device, in domain {domain}", "pages", 170, put_together(lines),
                 [dots_of("count that checks read", "read", shown, pages)])


def pauses_panel(scene: Scene, shown: list[SeenCheck]) -> Panel:
    """A row for each task: each pause as a bar, as high as it is long, and each check as a point at its foot."""
    tasks = sorted({task for task, _ in scene.trace.writers()} | {check.event.task for check in shown})
    rows = {task: row for row, task in enumerate(tasks)}
    longest = max(check.event.pause for check in shown)
    panel = Panel(f"pauses of tasks: a bar is as high as its pause is long, the highest has {counted(longest, 'tick')}", "", 0,
                  rows=[f"task {task}, paused {percent(scene.paused(task, 0))}" for task in tasks])
    panel.height = height_of(len(tasks))
    for decision in Decision:
        of_kind = [(number, check.event) for number, check in enumerate(shown) if check.event.decision is decision]
        paused = [(number, event) for number, event in of_kind if event.pause]
        if paused:
            panel.bars.append(Bars(
                f"paused after '{decision.value}'", decision.value, [event.now for _, event in paused],
                [event.pause for _, event in paused], [rows[event.task] + FOOT for _, event in paused],
                [round(max(ROW * event.pause / longest, LEAST_HEIGHT), 4) for _, event in paused], [number for number, _ in paused]))
        if of_kind:
            panel.dots.append(Dots(
                f"check: {decision.value}", decision.value, [event.now for _, event in of_kind],
                [rows[event.task] + FOOT for _, event in of_kind], [number for number, _ in of_kind]))
    return panel


def height_of(rows: int) -> int:
    """Of a part with so many rows, in dots."""
    return max(100, 56 * rows if rows <= 8 else 28 * rows if rows <= 32 else 10 * rows)


def rates_panel(scene: Scene) -> Panel:
    """Rate limit and average bandwidth of each context. Where those of two are the same, the first is the broader line."""
    lines = []
    contexts = sorted(scene.rate_limits)
    for place, context in enumerate(contexts):
        width = 1.8 + 2.4 * min(len(contexts) - 1 - place, 2)
        for series, name, dash in ((scene.rate_limits[context], "rate limit", "solid"), (scene.bandwidths[context], "bandwidth", "dot")):
            lines.append(replace(held(scene, series, f"{name}, context {context}", of_context(context)), width=width, dash=dash))
    values = [value for line in lines for value in line.y]
    return Panel("rates of contexts", "pages/s", 220, lines, is_log=max(values) > EVEN * max(min(values), 1))


# ---- what several parts use


def held(scene: Scene, series: Series, name: str, role: str) -> Line:
    """A curve whose last value is held to the end."""
    x, y = series.points()
    return Line(name, role, [*x, max(scene.last, x[-1])], [*y, y[-1]]) if x else Line(name, role, [], [])


def dots_of(name: str, role: str, shown: list[SeenCheck], values: list[int | None]) -> Dots:
    """A point for each check that has a value."""
    told = [(number, check, value) for number, (check, value) in enumerate(zip(shown, values)) if value is not None]
    return Dots(name, role, [check.event.now for _, check, _ in told], [value for *_, value in told], [number for number, *_ in told])


def of_context(number: int) -> str:
    """The role of a context's colour."""
    return f"context-{number % 8}"
