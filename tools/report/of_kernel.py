"""The report of a kernel's text: a part for the pages of the global domain, for those of each disk, for the pauses of all tasks, kernel
and laws in two directions, and for the rates of each disk. Places are seconds from the first check of the text.
"""
from __future__ import annotations

from collections.abc import Iterator, Sequence
from dataclasses import dataclass, field, replace

from kernel import comparing
from kernel.whole import Story
from kernel.numbers import Kind, Number, Verdict
from kernel.raised import Plain
from kernel.reads import limits_of
from kernel.tracepoints import State
from laws.limits import Limits, freerun_of, setpoint_of

from .causes import Causes
from .content import Axis, Bars, CheckText, Dots, Line, Panel, Report, Table, put_together
from .kernel_why import Told, is_of_machine, lines_of, spans, told_of
from .thinning import CHECK_RULE, CURVE_RULE, MOST_BINS, Peaks, Thinned

MICRO = 1_000_000
"""Places of curves are microseconds, as the text's."""

ROW = 0.44
"""What the highest bar takes of the height of its row, above its middle or below."""

PEAKS = 50
"""Where the greatest rate is more than so many times the median, rates have a log scale."""

HALVES = ("The pauses of the kernel stand above the middle of a row, and those of the laws below it. They are as high as the root of their "
          "length, so that short ones show beside long ones.")

RAISED = ("A kernel raises both thresholds for a task of a real-time class. Curves show them as they are for others; the points of such a "
          "task's checks were decided by the raised ones.")


@dataclass
class Seen:
    """What the parts are made of: the checks that are shown, and how wide the bins of the widest curve are."""

    story: Story
    shown: list[Told]
    first: float
    last: float
    widths: list[int] = field(default_factory=list)

    def place(self, time: float) -> float:
        """A time on the axis."""
        return round(time - self.first, 6)

    def curve(self, name: str, role: str, points: Sequence[tuple[float, int]]) -> Line:
        """A curve of points by their times, thinned where they are many; the last value is held to the end."""
        thinned = Thinned()
        for time, value in points:
            thinned.add(round((time - self.first) * MICRO), value)
        self.widths.append(thinned.width)
        places, values = thinned.points()
        if not places:
            return Line(name, role, [], [])
        return Line(name, role, [*(place / MICRO for place in places), max(self.last, places[-1] / MICRO)], [*values, values[-1]])

    def of(self, disk: str) -> list[tuple[int, Told]]:
        """The checks of a disk, each with its number."""
        return [(number, seen) for number, seen in enumerate(self.shown) if seen.joined.check.disk == disk]


def report_of(story: Story, title: str) -> Report:
    """The report."""
    found: dict[int, list[Number]] = {}
    tally = comparing.Tally()
    for number in comparing.numbers(story):
        found.setdefault(number.line, []).append(number)
        tally.take(number)
    clock, causes, kept = story.text.clock, Causes("ms"), Peaks[Told]([lambda it: it.joined.check.pause, lambda it: it.joined.check.dirty])
    first = story.checks[0].check.time
    for joined in story.checks:
        check, it = joined.check, told_of(joined, found.get(joined.check.line, ()), clock)
        cause = it.cause
        causes.take(check.task, cause, check.pause)
        kept.add((check.task, cause.decision), round((check.time - first) * MICRO), it)
    shown = kept.all()
    seen = Seen(story, shown, first, round(max(line.time for line in story.text.lines) - first, 6))
    panels = list(panels_of(seen))
    start = min([seen.place(story.text.lines[0].time), 0.0])
    return Report(
        title=title, facts=facts_of(story), axis=Axis("seconds from the first check", "s", start, seen.last, 1), panels=panels,
        checks=[text_of(seen, it) for it in shown], tables=[*causes.tables(), beside_table(tally)], texts=[],
        notes=list(notes_of(seen, kept)))


def facts_of(story: Story) -> list[str]:
    """What the text is, in short."""
    text = story.text
    strict = sorted({it.check.device for it in story.checks if it.is_strict})
    lost = [f"the kernel lost {text.lost} lines"] if text.lost else []
    return [f"{len(story.checks)} checks, {len(story.frees)} free ones, {len(story.estimates)} estimates",
            f"disks {', '.join(text.disks)}", *([f"strict: {', '.join(strict)}"] if strict else []),
            f"{text.clock.second} ticks a second", *lost]


def text_of(seen: Seen, it: Told) -> CheckText:
    """What is said of a check."""
    check, clock = it.joined.check, seen.story.text.clock
    pause = spans(check.pause, clock) if check.pause > 0 else "none"
    head = f"{check.task} on disk {check.disk}, pause: {pause}; at {seen.place(check.time):.4f} s, line {check.line} of the text"
    return CheckText(head, it.sentence, list(lines_of(it)))


def number_of(it: Told, kind: Kind) -> Number | None:
    """The number of a kind of a check."""
    return next((number for number in it.numbers if number.kind is kind), None)


def beside_table(tally: comparing.Tally) -> Table:
    """How many numbers of each kind are those of the laws."""
    rows = [[kind.value, *(str(many) for many in tally.of(kind))] for kind in tally.kinds()]
    return Table("Numbers of the kernel beside those of the laws", ["number", *(verdict.value for verdict in Verdict)], rows, is_open=False)


def notes_of(seen: Seen, kept: Peaks[Told]) -> Iterator[str]:
    """How the report is to be read."""
    yield HALVES
    if any(it.is_raised for it in seen.story.checks):
        yield RAISED
    if max(seen.widths) > 1:
        yield CURVE_RULE.format(bins=MOST_BINS, width=f"up to {max(seen.widths) / MICRO:.3g} s")
    if kept.width:
        yield CHECK_RULE.format(kept=len(seen.shown), many=kept.many, width=f"{kept.width / MICRO:.3g} s")
    else:
        yield f"All {kept.many} checks are shown."


# ---- the parts


def panels_of(seen: Seen) -> Iterator[Panel]:
    """From the top."""
    yield domain_panel(seen)
    for disk in seen.story.text.disks:
        yield disk_panel(seen, disk)
    yield pauses_panel(seen)
    for disk in seen.story.text.disks:
        yield rates_panel(seen, disk)


def domain_panel(seen: Seen) -> Panel:
    """The global domain, as each line of it tells; its limits as those lines do that aren't of a real-time task. It is seen up to what
    checks had: a hard limit that was not yet followed lies far above."""
    told = seen.story.text.states
    plain = plain_of(told)

    def of(name: str, role: str, value: object, dash: str = "solid", width: float = 1.3, states: Sequence[State] = plain) -> Line:
        points = [(state.time, value(state)) for state in states]  # type: ignore[operator]
        return replace(seen.curve(name, role, points), dash=dash, width=width)

    lines = [
        of("hard limit", "hard", lambda it: limits_in(it).hard, width=4.0),
        of("threshold", "threshold", lambda it: it.thresh, "dash"),
        of("setpoint", "setpoint", lambda it: setpoint_of(limits_in(it)), "dashdot"),
        of("freerun", "freerun", lambda it: freerun_of(limits_in(it))),
        of("background threshold", "background", lambda it: it.background, "dot"),
        of("under writeback", "other", lambda it: it.writeback, states=told),
        of("dirty or under writeback", "count", lambda it: it.count, states=told)]
    read = [(number, it) for number, it in enumerate(seen.shown) if is_of_machine(it.joined)]
    dots = dots_of(seen, "count that checks read", "read", [(number, it, it.joined.check.dirty) for number, it in read])
    had = [max(limits_of(it).hard, it.check.dirty) for it in seen.story.checks if is_of_machine(it)]
    return Panel("pages of the global domain", "pages", 270, put_together(lines), [dots] if dots.x else [],
                 top=round(1.06 * max(had, default=0)))


def plain_of(states: Sequence[State]) -> list[State]:
    """Those whose thresholds aren't raised for a real-time task."""
    plain = Plain()
    return [state for state in states if not plain.is_raised(state)]


def limits_in(state: State) -> Limits:
    """The limits that a line tells. The hard limit counts as at least the threshold, as the laws take it."""
    return Limits(state.thresh, state.background, max(state.limit, state.thresh))


def disk_panel(seen: Seen, disk: str) -> Panel:
    """A disk's pages and its setpoint, as checks tell them; of a cgroup's disk also its domain."""
    checks = [it.check for it in seen.story.checks if it.check.disk == disk]
    lines = [replace(seen.curve("setpoint of the disk", "own-setpoint", [(it.time, it.context_setpoint) for it in checks]), dash="dashdot")]
    if any(it.disk != it.device for it in checks):
        lines.append(replace(seen.curve("hard limit of its domain", "hard", [(it.time, it.limit) for it in checks]), width=3.0))
        lines.append(seen.curve("setpoint of its domain", "setpoint", [(it.time, it.setpoint) for it in checks]))
        lines.append(seen.curve("pages of its domain", "other", [(it.time, it.dirty) for it in checks]))
    lines.append(seen.curve("pages of the disk", "count", [(it.time, it.context_dirty) for it in checks]))
    return Panel(f"pages of disk {disk}", "pages", 170, lines)


def pauses_panel(seen: Seen) -> Panel:
    """A row for each task: each pause of the kernel above the row's middle, that of the laws below it, and each check as a point."""
    clock = seen.story.text.clock
    tasks = sorted({it.joined.check.task for it in seen.shown}, key=lambda name: (len(name), name))
    rows = {task: row for row, task in enumerate(tasks)}
    by_laws = {number: found.laws for number, it in enumerate(seen.shown) if (found := number_of(it, Kind.PAUSE))}
    longest = max([1, *by_laws.values(), *(it.joined.check.pause for it in seen.shown)])
    panel = Panel(f"pauses of tasks: kernel above, laws below; the highest bar has {spans(longest, clock)}", "",
                  max(110, 64 * len(tasks) if len(tasks) <= 8 else 32 * len(tasks)), rows=[*tasks])

    def bars(name: str, role: str, side: int, pauses: list[tuple[int, int]]) -> None:
        told = [(number, seen.shown[number].joined.check, pause) for number, pause in pauses if pause > 0]
        if told:
            panel.bars.append(Bars(
                name, role, [seen.place(check.time) for _, check, _ in told], [pause / 1000 for *_, pause in told],
                [rows[check.task] for _, check, _ in told], [round(side * ROW * (pause / longest) ** 0.5, 4) for *_, pause in told],
                [number for number, *_ in told]))

    kinds = [it.cause.decision for it in seen.shown]
    for kind, name in (("go", "paused at its rate, kernel"), ("wait", "paused at a rate of 0, kernel")):
        bars(name, kind, 1, [(number, it.joined.check.pause) for number, it in enumerate(seen.shown) if kinds[number] == kind])
    bars("paused by the laws", "laws", -1, list(by_laws.items()))
    for kind in ("go", "wait"):
        of_kind = [(number, it, rows[it.joined.check.task]) for number, it in enumerate(seen.shown) if kinds[number] == kind]
        if of_kind:
            panel.dots.append(dots_of(seen, f"check: {kind}", kind, of_kind))
    return panel


def rates_panel(seen: Seen, disk: str) -> Panel:
    """Rate limit and average bandwidth of a disk, and of each check the task rate limit: the kernel's as a ring, that of the laws in it."""
    samples = [sample for sample in seen.story.text.samples if sample.disk == disk]
    checks = [it.check for it in seen.story.checks if it.check.disk == disk]
    lines = [replace(seen.curve("rate limit", "other", [(it.time, it.ratelimit) for it in checks]), width=1.8),
             replace(seen.curve("average bandwidth", "background", [(it.time, it.average) for it in samples]), dash="dot")]
    rates = [(number, it, found) for number, it in seen.of(disk) if (found := number_of(it, Kind.RATE))]
    dots = [replace(dots_of(seen, "task rate limit, kernel", "kernel", [(number, it, found.kernel) for number, it, found in rates]),
                    symbol="circle-open"),
            dots_of(seen, "task rate limit, laws", "laws", [(number, it, found.laws) for number, it, found in rates])]
    values = sorted(found.kernel for *_, found in rates)
    is_log = bool(values) and values[-1] > PEAKS * max(values[len(values) // 2], 1)
    return Panel(f"rates of disk {disk}", "pages/s", 240, put_together(lines), [it for it in dots if it.x], is_log=is_log)


def dots_of(seen: Seen, name: str, role: str, values: Sequence[tuple[int, Told, float]]) -> Dots:
    """A point for each check, with its number and its value."""
    return Dots(name, role, [seen.place(it.joined.check.time) for _, it, _ in values], [value for *_, value in values],
                [number for number, *_ in values])
