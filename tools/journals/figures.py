"""What a table of runs needs of a journal, by patterns over its bytes. An event for each line says more, and takes as much as fifty times as
long.

A journal is to begin and end as one. Of its entries just those lines are read that tell something here, but where a task rests: there each line
has its place, and is to be one of a journal. `reader` looks at all of it.
"""
from __future__ import annotations

import re
from collections import namedtuple

from .step_sums import steps_of, sums

TYPE_CHECKING = False
if TYPE_CHECKING:
    from collections.abc import Iterator

    from .step_sums import StepSums

OPENING = 1
"""The moment at which a replay begins."""

MOST_TOLD = 80
"""Characters of a line that are told."""

N, SIGNED = rb"(?:0|[1-9][0-9]{0,17})", rb"-?(?:0|[1-9][0-9]{0,17})"


def form(text: str) -> bytes:
    """The pattern of a line: `N` is a number, `(N)` one that is read, `Z` one that may be below 0."""
    return b" ".join(word.replace(b"N", N).replace(b"Z", SIGNED) for word in text.encode("ascii").split(b" ")) + b"\n"


HEAD = re.compile(form("timer") + b"(?:" + form("limits N N N N N") + b"|" + form("period N N") + b")*")
LIMITS = re.compile(rb"^limits ([0-9]+) ([0-9]+) [0-9]+ [0-9]+ ([0-9]+)$", re.M)
READS = re.compile(rb"^read 0 [0-9]+ [0-9]+ [0-9]+ [0-9]+ [0-9]+ (-?[0-9]+) ", re.M)
OTHER = b"|".join(map(form, ("claim N N", "fold [cd]N N Z", "read N N N N N N Z N N N", "count N N Z", "share N N N", "fault N N",
                              "back N N (?:dirty|absorbed)", "take N N")))
WRITE, CHECK, BATCH, LANDED, COME, CPU = 1, 5, 8, 9, 10, 11
"""The last group of each sort of line, below."""

ENTRY = re.compile(
    b"(?:" + OTHER + b")+|"
    + form("write (N) N (?:fresh|already)") + b"(?:" + form(r"write \1 N (?:fresh|already)") + b")*|"
    + form("check (N) N (N) N (free|go|exempt|wait) (N) N N N N") + b"|"
    + form("batch (N) N (N) (N)") + b"|"
    + form("done (N) N") + b"(?:" + form(r"done \9 N") + b")*|"
    + b"(?:est N N N N N N N N|notice N N|age N N N)".replace(b"N", N) + form(" (N)") + b"|"
    + form("cpu (N)"))
CHECKS = re.compile(rb"\ncheck ([0-9]+) [0-9]+ ([0-9]+) [0-9]+ ([a-z]+) ([0-9]+) ")
BATCHES = re.compile(rb"\nbatch ([0-9]+) [0-9]+ ([0-9]+) ([0-9]+)")
MOMENTS = [re.compile(rb"\n" + form) for form in (rb"est (?:[0-9]+ ){8}([0-9]+)", rb"notice [0-9]+ [0-9]+ ([0-9]+)",
                                                 rb"age [0-9]+ [0-9]+ [0-9]+ ([0-9]+)")]
LEFT = re.compile(rb"\n(?=left |census )|\Z")
STEPS = b"steps\n"
TAIL = re.compile(b"(?:" + form("left N (?:dirty|writeback|both)") + b")*" + form("census N N")
                  + form("totals N (N)") + b"(?:" + form("strict N N N") + b")*" + form("end (done|halted|spent|faulted)"))


class Figures(namedtuple("Figures", "pauses paused longest waits pages latest begin ending steps hard read")):
    """What a journal comes to: the pauses and their ticks, the longest, the waits, the pages completed, the latest and the first moment, the
    ending, what its steps come to, and of the global domain the greatest hard limit and the greatest count that a check read."""

    steps: StepSums | None


class Plan:
    """What a task still has to do: the pages of the write that it is in and how long it rests after them, how long it rests after the page that
    came last, and the writes that follow, each as its pages and the rest after it. A pace, its pages and ticks, cuts them. `ready` is when it
    may go on."""

    def __init__(self) -> None:
        self.actions = [[0, 0]]
        self.pace = 1 << 62, 0
        self.left, self.after, self.rest, self.ready = 0, 0, 0, OPENING
        self.following = self.cut()

    def begun(self) -> Plan:
        """At the opening."""
        self.rest = self.actions[0][1]
        self.ready = OPENING + self.rest
        self.go_on()
        return self

    def go_on(self) -> None:
        """To the next write."""
        self.left, self.after = next(self.following, (1 << 62, 0))

    def cut(self) -> Iterator[tuple[int, int]]:
        """The writes, each as its pages and the rest after it, as the pace cuts them."""
        pages, ticks = self.pace
        number, whole = 0, sum(many for many, _ in self.actions)
        for left, rest in self.actions[1:]:
            while left:
                many = min(left, pages - number % pages)
                number, left = number + many, left - many
                yield many, (ticks if number % pages == 0 and number < whole else 0) + (0 if left else rest)

    def rests(self) -> bool:
        """Whether the task rests at all."""
        return self.pace[0] < sum(many for many, _ in self.actions) or any(rest for _, rest in self.actions)


ACTION = re.compile(r"^(?:task ([0-9]+) |pace ([0-9]+) ([0-9]+) ([0-9]+)$|(write|rest) ([0-9]+) (?:[0-9]+ [0-9]+ )?([0-9]+)$)", re.M)


def plans_of(trace: str) -> list[Plan]:
    """Those of the tasks of a trace, which is one."""
    plans: dict[int, Plan] = {}
    for task, paced, pages, ticks, word, who, many in ACTION.findall(trace):
        if task:
            plans[int(task)] = Plan()
        elif paced:
            plans[int(paced)].pace = int(pages), int(ticks)
        elif word == "write":
            plans[int(who)].actions.append([int(many), 0])
        else:
            plans[int(who)].actions[-1][1] += int(many)
    return [plans[task].begun() for task in range(len(plans))]


def figures(trace: str, journal: bytes) -> Figures:
    """What a journal of a trace comes to. Raises `ValueError` where a line isn't one of a journal."""
    first, end = steps_of(journal)
    head = HEAD.match(journal)
    limits = LIMITS.findall(journal, 0, head.end()) if head else []
    if not limits:
        raise ValueError("it doesn't begin with limits")
    plans, latest = plans_of(trace), max(int(now) for _, now, _ in limits)
    steps = sums(journal, first, end)
    after = first - len(STEPS) if steps else LEFT.search(journal, head.end() - 1).end()
    if any(plan.rests() for plan in plans):
        checks, latest = walk(journal, head.end(), after, plans, latest)
    else:
        checks, latest = look(journal, head.end() - 1, after, latest)
    tail = TAIL.fullmatch(journal, end if steps else after)
    if not tail:
        raise ValueError("it doesn't end with totals")
    read = 0 if steps else max((int(count) for count in READS.findall(journal)), default=0)
    pauses = [pause for pause, _ in checks if pause]
    return Figures(len(pauses), sum(pauses), max(pauses, default=0), sum(is_wait for _, is_wait in checks), int(tail[1]), latest,
                   int(limits[0][1]), tail[2].decode("ascii"), steps,
                   max(int(hard) for domain, _, hard in limits if domain == b"0"), read)


def look(text: bytes, at: int, end: int, latest: int) -> tuple[list[tuple[int, bool]], int]:
    """The pause of each check and whether it is a wait, and the latest moment, where no task rests. Checks, batches and estimates tell their
    moments, and of pauses and flights just each last one may end later than all that: where a write or a completion follows it."""
    checks, until = [], {}
    for it in CHECKS.finditer(text, at, end):
        task, now, decision, pause = it.groups()
        checks.append((int(pause), decision == b"wait"))
        latest = max(latest, int(now))
        until[b"\nwrite %b " % task] = it.end(), int(now) + int(pause)
    for it in BATCHES.finditer(text, at, end):
        flusher, now, landing = it.groups()
        latest = max(latest, int(now))
        until[b"\ndone %b " % flusher] = it.end(), int(landing)
    latest = max([latest, *(int(now) for form in MOMENTS for now in form.findall(text, at, end))])
    return checks, max([latest, *(moment for line, (place, moment) in until.items() if moment > latest and text.find(line, place, end) >= 0)])


def walk(text: bytes, at: int, end: int, plans: list[Plan], latest: int) -> tuple[list[tuple[int, bool]], int]:
    """The same where tasks rest. The moments are those of `entry_moments`: a write comes at the end of its task's pause or rest, or later, and
    a completion at the end of its flight, or later."""
    checks, landing, known = [], {}, OPENING
    scan = ENTRY.scanner(text, at, end).match
    try:
        while found := scan():
            kind = found.lastindex
            if kind == WRITE:
                known = written(plans[int(found[1])], found[0].count(b"\n"), known)
            elif kind == LANDED:
                known = max(known, landing.get(found[9], OPENING))
            elif kind == CHECK:
                plan, pause = plans[int(found[2])], int(found[5])
                now = int(found[3])
                checks.append((pause, found[4] == b"wait"))
                plan.ready = now + pause + plan.rest
                known = max(known, now)
            elif kind == BATCH:
                landing[found[6]] = int(found[8])
                known = max(known, int(found[7]))
            elif kind == COME:
                known = max(known, int(found[10]))
            elif kind == CPU:
                latest, known = max(latest, known), OPENING
            at = found.end()
    except IndexError:
        raise ValueError(f"{line_at(text, at)}: the trace has no such task") from None
    if at != end:
        raise ValueError(f"{line_at(text, at)} among the entries")
    return checks, max(latest, known)


def line_at(text: bytes, at: int) -> str:
    """A line, to be told."""
    return repr(text[at : at + MOST_TOLD].partition(b"\n")[0].decode("latin-1"))


def written(plan: Plan, pages: int, known: int) -> int:
    """How far a CPU has come when a task has written pages on it, one after another."""
    while pages:
        known = max(known, plan.ready)
        some = min(pages, plan.left)
        pages, plan.left, plan.rest = pages - some, plan.left - some, 0
        if not plan.left:
            plan.rest = plan.after
            plan.go_on()
        plan.ready = known + plan.rest
    return known
