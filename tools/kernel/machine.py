"""A machine like the one that printed a text, as far as the text tells it.

Its thresholds are those of the text. Each disk writes as fast as it did: what its writers dirtied less what it had more in the end. Each writer
writes as many pages as in the text, a few and then a rest, as fast as it did while it wasn't paused. What the lines of no writer tell is taken
together as one more disk and one more task. How the machine's files lay on its disks isn't in it.
"""
from __future__ import annotations

from collections import Counter
from collections.abc import Iterator, Sequence
from dataclasses import dataclass, field, replace

from journals.trace_limits import MOST_PAGES as MOST_PAGES_OF_TRACE
from program.errors import OtherWords

from .joining import Joined
from .shares import DeviceOf, OthersOf, cgroups_of, devices_of
from .tracepoints import State
from .whole import Story

MOST_PAGES = 340_000
"""Pages of a trace: with at most twelve steps each, as in a cgroup, a replay has steps for them."""

MOST_LIMIT = 4_294_967_295
MOST_CPUS = 64
AT_ONCE = 32
"""Pages that a writer writes between two rests, at least, where it isn't too slow."""

MOST_REST = 1000
CHUNK = 256
"""Pages with which a scan ends: as many as a disk of a kernel has in a few requests."""

FEW = 100
"""A disk with a part of the pages that is less than one of so many is left out."""

MARGIN, SPARE = 1.5, 4096
"""A writer has so many times the pages that it wrote, and so many more, so that all of them write to the end, whichever got more."""

SOON = 0.1
"""Seconds within which a hard limit falls with the threshold, where someone sets it."""

OTHERS = 5
"""Pages of no check are those of other tasks where they are more than a part of so many; else the writers' own."""

OLDEST = 100_000
"""Hundredths of a second."""


@dataclass(frozen=True)
class WriterOf:
    """A writer: its name, disk and CPU, its pages in all, and as many as it writes between two rests of so many ticks."""

    name: str
    disk: str
    cpu: int
    pages: int
    at_once: int
    rest: int


@dataclass(frozen=True)
class ContextOf:
    """A disk, or the part of it that a cgroup has: pages dirty when the text begins, and its estimate, if a line tells it."""

    disk: str
    pages: int
    estimate: tuple[int, int, int] | None

    @property
    def device(self) -> str:
        """The disk, whichever cgroup it is of."""
        return self.disk.partition(" ")[0]


@dataclass
class Machine:
    """What a trace says of a text, and what is told of it."""

    cpus: int
    limits: list[tuple[int, int, int]]
    """From a tick on: threshold and background threshold."""

    devices: dict[str, DeviceOf]
    cgroups: dict[str, int]
    """By their names, the threshold of each."""

    contexts: list[ContextOf]
    writers: list[WriterOf]
    others: OthersOf | None
    chunk: int = CHUNK
    notes: list[str] = field(default_factory=list)


def machine_of(story: Story, seconds: float | None = None, chunk: int = CHUNK, is_forecast: bool = False) -> Machine:
    """The machine of a text, or of its first so many seconds. For a forecast it has as many pages as a trace may have, else as a replay."""
    begin = story.checks[0].check.time
    end = begin + seconds if seconds else story.checks[-1].check.time
    states = [it for it in story.text.states if begin <= it.time <= end]
    if len(states) < 2 or states[-1].time <= states[0].time:
        raise OtherWords("the text is too short: it has no span of time")
    notes: list[str] = []
    plain = plain_states(story, states, notes)
    limits, until = limits_over(plain, begin, notes)
    end = min(end, until)
    checks = with_pages([it for it in story.checks if it.check.time <= end], notes)
    states = [it for it in states if it.time <= end]
    span = max(states[-1].time - states[0].time, 0.001)
    own = sum(pages_of(it) for it in checks)
    dirtied = states[-1].dirtied - states[0].dirtied
    is_own = not dirtied or own >= dirtied - dirtied // OTHERS
    scale = dirtied / own if is_own and dirtied else 1.0
    contexts = list(contexts_of(story, checks))
    others = others_of(checks, contexts, states, 0 if is_own else dirtied - own)
    most = MOST_PAGES_OF_TRACE if is_forecast else min(MOST_PAGES, MOST_PAGES_OF_TRACE)
    writers = with_more(list(writers_of(checks, span, scale)), most - sum(it.pages for it in contexts), others, notes)
    devices = devices_of(checks, states, scale, others)
    cpus = min(1 + max(line.cpu for line in story.text.lines), MOST_CPUS)
    machine = Machine(cpus, limits, devices, cgroups_of(checks), contexts, writers, others, chunk, notes)
    notes[:0] = told(machine, story, span)
    return machine


def pages_of(it: Joined) -> int:
    """The pages that a check counted and that were written since the one before."""
    return it.check.dirtied if it.check.pause > 0 or it.check.period > 0 else 0


def plain_states(story: Story, states: list[State], notes: list[str]) -> list[State]:
    """Those whose thresholds aren't raised for a task of a real-time class."""
    raised = {it.state.line for it in story.checks if it.is_raised and it.state}
    if not raised:
        return states
    notes.append("tasks of a real-time class have raised thresholds in the text; here they have those of all")
    lines = {it.task for it in states if it.line in raised}
    return [it for it in states if it.task not in lines] or states


def limits_over(states: Sequence[State], begin: float, notes: list[str]) -> tuple[list[tuple[int, int, int]], float]:
    """Thresholds and the tick from which on they held, and until when a trace can follow them."""
    found: list[tuple[int, int, int]] = []
    for state in states:
        if not found or found[-1][1:] != (state.thresh, state.background):
            if state.thresh > MOST_LIMIT:
                raise OtherWords(f"line {state.line}: a threshold of {state.thresh} pages; a trace has at most {MOST_LIMIT}")
            why = not_followed(found, state, states) if found else ""
            if why:
                notes.append(f"cut at {state.time - begin:.1f} s: {why}; 'wb kernel beside' takes as many --seconds")
                return found, state.time
            found.append((0 if not found else max(round((state.time - begin) * 1000), found[-1][0] + 1), state.thresh, state.background))
    return found, states[-1].time


def not_followed(found: Sequence[tuple[int, int, int]], state: State, states: Sequence[State]) -> str:
    """Why a replay can't follow thresholds that change: nothing where it can."""
    _, thresh, background = found[0]
    if abs(state.background * thresh - background * state.thresh) > thresh * state.thresh // 50:
        return "the background threshold becomes another part of the threshold, which a trace can't say"
    limit = min(it.limit for it in states if 0 <= it.time - state.time < SOON)
    if limit <= state.thresh < found[-1][1] - found[-1][1] // 32:
        return "the hard limit falls with the threshold, as where someone sets one, and that of a replay falls slowly"
    return ""


def with_pages(checks: list[Joined], notes: list[str]) -> list[Joined]:
    """Without those of disks that have few pages."""
    pages: Counter[str] = Counter()
    for it in checks:
        pages[it.check.device] += pages_of(it)
    few = sorted(disk for disk, many in pages.items() if many * FEW < sum(pages.values()))
    if few:
        notes.append(f"left out, for few pages: {', '.join(f'disk {disk}' for disk in few)}")
    return [it for it in checks if it.check.device not in few]


def contexts_of(story: Story, checks: list[Joined]) -> Iterator[ContextOf]:
    """Each disk that is written, for each cgroup, and what the first lines tell of it."""
    for disk in sorted({it.check.disk for it in checks}):
        first = next(it.check for it in checks if it.check.disk == disk)
        sample = next((it for it in story.text.samples if it.disk == disk), None)
        is_early = first.time - checks[0].check.time < 1
        rates = None
        if sample:
            ratelimit = sample.ratelimit if sample.time <= first.time else first.ratelimit
            rates = max(sample.bandwidth, 1), max(sample.average, 1), max(ratelimit, 1)
        yield ContextOf(disk, first.context_dirty if is_early else 0, rates)


def others_of(checks: list[Joined], contexts: list[ContextOf], states: list[State], pages: int) -> OthersOf | None:
    """What no check tells."""
    opening = max(states[0].count - sum(it.pages for it in contexts), 0)
    opening = opening if opening * FEW > states[0].count else 0
    if not opening and not pages:
        return None
    rate = max(round(pages / (states[-1].time - states[0].time)), 1)
    level = mean_of_others(checks)
    return OthersOf(opening, pages, rate, min(max(round(100 * level / rate), 1), OLDEST))


def mean_of_others(checks: list[Joined]) -> float:
    """How many pages are dirty on other disks, in the mean over checks."""
    of: dict[str, int] = {}
    sums = 0
    for it in checks:
        of[it.check.disk] = it.check.context_dirty
        sums += max((it.state.count if it.state else it.check.dirty) - sum(of.values()), 0)
    return sums / max(len(checks), 1)


def writers_of(checks: list[Joined], span: float, scale: float) -> Iterator[WriterOf]:
    """Each pair of a task and a disk, with its rate while it wasn't paused."""
    pairs = sorted({(it.check.task, it.check.disk) for it in checks})
    for task, disk in pairs:
        own = [it for it in checks if (it.check.task, it.check.disk) == (task, disk)]
        pages = round(scale * sum(map(pages_of, own)))
        paused = sum(it.check.pause for it in own if it.check.pause > 0) / 1000
        if not pages:
            continue
        cpu = Counter(it.check.cpu for it in own).most_common(1)[0][0]
        yield WriterOf(task, disk, min(cpu, MOST_CPUS - 1), pages, *pace_of(pages / max(span - paused, 0.001)))


def pace_of(rate: float) -> tuple[int, int]:
    """Pages, and the ticks of a rest after them, for so many pages a second."""
    rest = min(max(round(1000 * AT_ONCE / rate), 1), MOST_REST)
    return max(round(rate * rest / 1000), 1), rest


def with_more(writers: list[WriterOf], most: int, others: OthersOf | None, notes: list[str]) -> list[WriterOf]:
    """Each with pages to the end, but together no more than there is room for."""
    wanted = sum(it.pages for it in writers)
    room = most - (others.opening + others.pages if others else 0)
    if room < wanted // 2:
        raise OtherWords(f"the text has {wanted} pages of its writers, and there is room for {max(room, 0)}: --seconds takes fewer, and a trace for a "
                         "--forecast has more")
    if room < wanted:
        notes.append(f"cut to {room} of {wanted} pages, for which there is room")
    more = [round(MARGIN * it.pages) + SPARE for it in writers]
    whole = max(sum(more), room)
    return [replace(it, pages=max(pages * room // whole, 1)) for it, pages in zip(writers, more)]


def told(machine: Machine, story: Story, span: float) -> list[str]:
    """What the trace stands for."""
    lines = [f"made of {story.text.path}: {span:.1f} s, {len(story.checks)} checks"]
    for tick, thresh, background in machine.limits:
        lines.append(f"from tick {tick} on: vm.dirty_bytes={thresh * 4096}, vm.dirty_background_bytes={background * 4096}"
                     f" ({thresh} and {background} pages)")
    for disk, it in machine.devices.items():
        is_strict = ", strict" if it.is_strict else ""
        lines.append(f"disk {disk}: {it.rate} pages a second, at most {it.greatest} percent of the threshold{is_strict}")
    lines += [f"cgroup {name}: a threshold of {thresh} pages" for name, thresh in machine.cgroups.items()]
    for at in machine.contexts:
        rates = "no estimate is told" if at.estimate is None else "estimate {} {} {}".format(*at.estimate)
        lines.append(f"disk {at.disk} begins with {at.pages} dirty pages; {rates}")
    lines += [f"{it.name} on {it.disk}: {it.pages} pages, {it.at_once} and then a rest of {it.rest} ticks" for it in machine.writers]
    if machine.others:
        it = machine.others
        lines.append(f"other disks begin with {it.opening} dirty pages")
        if it.pages:
            lines.append(f"tasks without checks: {it.pages} pages on other disks, each of which stays some {it.age / 100:.1f} s")
    return lines
