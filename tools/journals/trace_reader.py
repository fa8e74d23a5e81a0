"""Reading a trace. A text that `wbsim check` refuses is refused here with the same line and cause.

Each call of a line looks for its faults in the order of the format's table: unknown names, what is given twice, what is out of range,
too many. Of several with one cause the leftmost is told.
"""
from __future__ import annotations

from collections.abc import Callable
from dataclasses import replace
from difflib import get_close_matches

from program.errors import Cause, Fault

from . import trace_limits as limits
from .ranges import CAP, CPUS, Range
from .spelling import column_of, cut
from .trace import Cgroup, Context, Device, FirstEstimate, Flusher, Inode, Order, Pace, RestAction, Tick, Trace, WriteAction
from .whole_text import Refused, WholeText, read_whole

COUNTS = {
    "cpus": 1, "cap": 1, **{f"set {name}": 1 for name in limits.SETTINGS}, "avail": 2, "device": 4, "strict": 1, "chunk": 2, "cyclic": 1,
    "cgroup": 3, "context": 3, "expire": 2, "estimate": 4, "inode": 3, "task": 2, "pace": 3, "flusher": 3, "write": 4, "rest": 2,
    "order": 2, "order timer": 1, "tick": 1, "halt": 1,
}
"""How many numbers each line has."""


class Found(Exception):
    """A fault of a line that is well spelled: its cause, the number that is at fault, from 0, and what was found."""

    def __init__(self, cause: Cause, place: int, found: str) -> None:
        super().__init__(found)
        self.cause = cause
        self.place = place
        self.found = found


def read_trace(path: str) -> Trace:
    """The trace of a file. Raises `Fault` where it is none."""
    return trace_of(read_whole(path))


def trace_of(text: WholeText) -> Trace:
    """The trace of a text. Raises `Fault` where it is none."""
    reader = TraceReader()
    text.give(reader)
    missing = reader.missing()
    if missing:
        raise Fault(text.path, 0, Cause.MISSING, missing[1], thing=missing[0])
    return reader.trace


def unknown_word(word: str) -> str:
    """What is said of a word that begins no line, or of two."""
    near = get_close_matches(word.lower(), [*COUNTS, "set"], 1, 0.75)
    hint = f"; is it '{near[0]}'?" if near else ""
    if word.startswith("set "):
        return f"no setting is named '{word.removeprefix('set ')}'{hint}"
    return f"no line of a trace begins with '{word}'{hint}"


class TraceReader:
    """Takes a trace line by line."""

    def __init__(self) -> None:
        self.trace = Trace()
        self.number = 0
        self.lines: dict[str, list[int]] = {"avail": [], "cgroup": [0]}
        self.action_lines = 0
        self.writers: set[tuple[int, int]] = set()
        self.calls: dict[str, Callable[..., None]] = {
            "cpus": self.cpus, "cap": self.cap, "avail": self.avail, "device": self.device, "strict": self.strict, "chunk": self.chunk,
            "cyclic": self.cyclic, "cgroup": self.cgroup, "context": self.context, "expire": self.expire, "estimate": self.estimate,
            "inode": self.inode, "task": self.task, "pace": self.pace, "flusher": self.flusher, "write": self.write, "rest": self.rest,
            "order": self.order, "order timer": self.order_timer, "tick": self.tick, "halt": self.halt,
        }
        for name in limits.SETTINGS:
            self.calls[f"set {name}"] = lambda value, name=name: self.setting(name, value)

    def spell(self, text: str) -> None:
        """Raises `Refused` where the text is spelled as no line."""
        cut(text, COUNTS, unknown_word)

    def line(self, text: str) -> None:
        """One line. Raises `Refused`."""
        self.number += 1
        word, numbers = cut(text, COUNTS, unknown_word)
        try:
            self.calls[word](*numbers)
        except Found as found:
            raise Refused(found.cause, found.found, column_of(text, found.place)) from None

    def missing(self) -> tuple[str, str] | None:
        """The word of what no line has said, and that in a sentence."""
        if "cpus" not in self.lines:
            return "cpus", "no line says how many CPUs there are"
        if not self.trace.avail:
            return "avail", "no line says how many pages are available"
        served = {flusher.device for flusher in self.trace.flushers}
        for device in range(len(self.trace.devices)):
            if device not in served:
                return "flusher", f"device {device} has no flusher"
        return None

    # what several lines ask

    def stands(self, word: str) -> None:
        """A line, or a thing of a sort, stands from here on."""
        self.lines.setdefault(word, []).append(self.number)

    def once(self, word: str) -> None:
        """The line stands nowhere before."""
        if word in self.lines:
            raise Found(Cause.GIVEN_TWICE, 0, f"a second '{word}' line: the first is line {self.lines[word][0]}")

    def known(self, place: int, thing: str, number: int) -> None:
        """A line before declares the thing. Domain 0, which no line declares, is among the cgroups."""
        many = len(self.lines.get(thing, []))
        if number >= many:
            last = f"the last one so far is {thing} {many - 1}" if many > (thing == "cgroup") else f"there is no {thing} so far"
            raise Found(Cause.UNKNOWN_NAME, place, f"no line before has {thing} {number}: {last}")

    def cpu_stands(self, place: int) -> None:
        """A line before says how many CPUs there are."""
        if "cpus" not in self.lines:
            raise Found(Cause.UNKNOWN_NAME, place, "no line before says how many CPUs there are")

    def follows(self, thing: str, number: int) -> None:
        """The thing that the line declares is the next of its sort."""
        stand = self.lines.get(thing, [])
        if number < len(stand):
            where = f", in line {stand[number]}" if stand[number] else ": it is the global domain"
            raise Found(Cause.GIVEN_TWICE, 0, f"{thing} {number} stands already{where}")
        self.holds(0, number == len(stand), f"{thing} {number} where {thing} {len(stand)} is the next")

    def holds(self, place: int, is_so: bool, found: str) -> None:
        """Else a number is out of its range."""
        if not is_so:
            raise Found(Cause.OUT_OF_RANGE, place, found)

    def ranged(self, place: int, number: int, wanted: Range) -> None:
        """The number is in a range."""
        self.holds(place, wanted.least <= number <= wanted.greatest, wanted.fault(number))

    def on_cpu(self, place: int, cpu: int) -> None:
        """The CPU is one of those that there are."""
        self.holds(place, cpu < self.trace.cpus, f"no CPU {cpu}: the last is CPU {self.trace.cpus - 1}")

    def room(self, is_so: bool, found: str, place: int = 0) -> None:
        """Else there are too many."""
        if not is_so:
            raise Found(Cause.TOO_MANY, place, found)

    def room_for(self, thing: str) -> None:
        """There may be one more of a sort."""
        most, first = limits.MOST_OF[thing], int(thing == "cgroup")
        self.room(len(self.lines.get(thing, [])) < most + first, f"the most are {most} '{thing}' lines, and they stand already")

    # the lines

    def cpus(self, many: int) -> None:
        self.once("cpus")
        self.ranged(0, many, CPUS)
        self.stands("cpus")
        self.trace.cpus = many

    def cap(self, pages: int) -> None:
        self.once("cap")
        self.ranged(0, pages, CAP)
        self.stands("cap")
        self.trace.cap = pages

    def setting(self, name: str, value: int) -> None:
        self.once(f"set {name}")
        self.ranged(0, value, limits.SETTINGS[name])
        self.stands(f"set {name}")
        self.trace.settings[name] = value

    def avail(self, tick: int, pages: int) -> None:
        avail = self.trace.avail
        self.ranged(0, tick, limits.AVAIL_TICK)
        if avail:
            self.holds(0, tick > avail[-1][0], f"tick {tick} where the 'avail' line before has tick {avail[-1][0]}: ticks go up")
        else:
            self.holds(0, tick == 0, f"the first 'avail' line has tick {tick}: it has to be 0")
        self.ranged(1, pages, limits.AVAIL_PAGES)
        self.room(len(avail) < limits.MOST_AVAIL_LINES, f"the most are {limits.MOST_AVAIL_LINES} 'avail' lines, and they stand already")
        avail.append((tick, pages))

    def device(self, number: int, rate: int, least: int, greatest: int) -> None:
        devices = self.trace.devices
        least_in_all = least + sum(device.least for device in devices)
        self.follows("device", number)
        self.ranged(1, rate, limits.RATE)
        self.ranged(2, least, limits.LEAST_SHARE)
        self.holds(2, least <= greatest, f"a least share of {least} percent above the greatest, {greatest}")
        self.holds(2, least_in_all <= limits.PERCENT, f"all least shares together come to {least_in_all} percent, above {limits.PERCENT}")
        self.ranged(3, greatest, limits.GREATEST_SHARE)
        self.room_for("device")
        self.stands("device")
        devices.append(Device(rate, least, greatest))

    def strict(self, device: int) -> None:
        self.known(0, "device", device)
        self.once(f"strict {device}")
        self.stands(f"strict {device}")
        self.trace.devices[device] = replace(self.trace.devices[device], is_strict=True)

    def chunk(self, device: int, pages: int) -> None:
        self.known(0, "device", device)
        self.once(f"chunk {device}")
        self.ranged(1, pages, limits.CHUNK)
        self.stands(f"chunk {device}")
        self.trace.devices[device] = replace(self.trace.devices[device], chunk=pages)

    def cyclic(self, device: int) -> None:
        self.known(0, "device", device)
        self.once(f"cyclic {device}")
        self.stands(f"cyclic {device}")
        self.trace.devices[device] = replace(self.trace.devices[device], is_cyclic=True)

    def cgroup(self, number: int, file_pages: int, headroom: int) -> None:
        self.follows("cgroup", number)
        self.ranged(1, file_pages, limits.FILE_PAGES)
        self.ranged(2, headroom, limits.HEADROOM)
        self.room_for("cgroup")
        self.stands("cgroup")
        self.trace.cgroups.append(Cgroup(file_pages, headroom))

    def context(self, number: int, device: int, domain: int) -> None:
        self.known(1, "device", device)
        self.known(2, "cgroup", domain)
        self.follows("context", number)
        self.room_for("context")
        self.stands("context")
        self.trace.contexts.append(Context(device, domain))

    def expire(self, context: int, hundredths: int) -> None:
        self.known(0, "context", context)
        self.once(f"expire {context}")
        self.ranged(1, hundredths, limits.EXPIRE)
        self.stands(f"expire {context}")
        self.trace.contexts[context] = replace(self.trace.contexts[context], expire=hundredths)

    def estimate(self, context: int, bandwidth: int, average: int, ratelimit: int) -> None:
        self.known(0, "context", context)
        self.once(f"estimate {context}")
        for place, rate in enumerate((bandwidth, average, ratelimit), 1):
            self.ranged(place, rate, limits.RATE_OF_ESTIMATE)
        self.stands(f"estimate {context}")
        self.trace.contexts[context] = replace(self.trace.contexts[context], estimate=FirstEstimate(bandwidth, average, ratelimit))

    def inode(self, number: int, context: int, pages: int) -> None:
        self.known(1, "context", context)
        self.follows("inode", number)
        self.ranged(2, pages, limits.INODE_PAGES)
        self.room_for("inode")
        in_all = self.trace.pages + pages
        self.room(in_all <= limits.MOST_PAGES, f"all inodes together come to {in_all} pages, above {limits.MOST_PAGES}", 2)
        self.stands("inode")
        self.trace.inodes.append(Inode(context, self.trace.pages, pages))
        self.trace.pages = in_all

    def task(self, number: int, cpu: int) -> None:
        self.cpu_stands(1)
        self.follows("task", number)
        self.on_cpu(1, cpu)
        self.room_for("task")
        self.stands("task")
        self.trace.tasks.append(cpu)

    def pace(self, task: int, pages: int, ticks: int) -> None:
        self.known(0, "task", task)
        self.once(f"pace {task}")
        self.ranged(1, pages, limits.PACE)
        self.ranged(2, ticks, limits.REST)
        self.stands(f"pace {task}")
        self.trace.paces[task] = Pace(pages, ticks)

    def flusher(self, number: int, device: int, cpu: int) -> None:
        self.known(1, "device", device)
        self.cpu_stands(2)
        self.follows("flusher", number)
        self.on_cpu(2, cpu)
        self.room_for("flusher")
        self.stands("flusher")
        self.trace.flushers.append(Flusher(device, cpu))

    def write(self, task: int, inode: int, first: int, pages: int) -> None:
        self.known(0, "task", task)
        self.known(1, "inode", inode)
        written = self.trace.inodes[inode]
        last = f"the last page of inode {inode} is its page {written.pages - 1}"
        self.holds(2, first < written.pages, f"a write from page {first}: {last}")
        self.holds(3, pages >= 1, "a write of no page")
        self.holds(3, first + pages <= written.pages, f"a write up to page {first + pages - 1}: {last}")
        self.action()
        writer = task, written.context
        self.room(writer in self.writers or len(self.writers) < limits.MOST_WRITERS,
                  f"a pair of a task and a context more, above {limits.MOST_WRITERS}")
        self.writers.add(writer)
        self.act(task, WriteAction(inode, written.first + first, pages))

    def rest(self, task: int, ticks: int) -> None:
        self.known(0, "task", task)
        self.ranged(1, ticks, limits.REST)
        self.action()
        self.act(task, RestAction(ticks))

    def action(self) -> None:
        self.room(self.action_lines < limits.MOST_ACTIONS,
                  f"the most are {limits.MOST_ACTIONS} 'write' and 'rest' lines, and they stand already")
        self.action_lines += 1

    def act(self, task: int, action: WriteAction | RestAction) -> None:
        self.trace.actions.setdefault(task, []).append(action)
        self.trace.acting.append(task)

    def order(self, cpu: int, steps: int) -> None:
        self.cpu_stands(0)
        self.on_cpu(0, cpu)
        self.ranged(1, steps, limits.ORDER_STEPS)
        self.take_order(Order(cpu, steps))

    def order_timer(self, steps: int) -> None:
        self.ranged(0, steps, limits.ORDER_STEPS)
        self.take_order(Order(None, steps))

    def tick(self, ticks: int) -> None:
        self.ranged(0, ticks, limits.TICKS)
        self.take_order(Tick(ticks))

    def take_order(self, order: Order | Tick) -> None:
        self.room(len(self.trace.orders) < limits.MOST_ORDER_LINES,
                  f"the most are {limits.MOST_ORDER_LINES} 'order' and 'tick' lines, and they stand already")
        self.trace.orders.append(order)

    def halt(self, steps: int) -> None:
        self.once("halt")
        self.ranged(0, steps, limits.HALT_STEPS)
        self.stands("halt")
        self.trace.halt = steps
