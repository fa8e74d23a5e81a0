"""The machine of a replay, told by intervals while it runs. It keeps no step and no entry, so that its memory is that of the trace.

An interval has as many moments as it is long, from a multiple of that on. Its rows are told when the clock has left it or the run has ended,
and only where a step was made in it. What a row says happened between the state with which the interval began and the one with which the next
began: counts and greatest counts are those after steps, and a pause is told where it begins.
"""
from __future__ import annotations

from collections.abc import Callable, Iterator

from journals.trace import RestAction
from journals.trace_limits import MOST_MOMENT
from replay import MOST_STEPS, Machine

from .interval import Entries, Interval, Places, Steps

MOST_FORECAST_STEPS = 1 << 40
STEP_TICKS = (1 << 32) + MOST_MOMENT
"""By how many ticks a step may put a moment later: as long as a rest for a pace may be, and a flight."""

LAST_MOMENT = 31 << 57


class Forecast(Machine):
    """The machine of a trace, of which `say` is told the lines, those of an interval of so many ticks at once."""

    def __init__(self, text: str, every: int, say: Callable[[list[str]], None]) -> None:
        self.every, self.say = every, say
        super().__init__(text)

    def open(self) -> None:
        """Everything stands as at the opening, and nothing was told."""
        super().open()
        self.places = Places([it.first for it in self.inodes], [it.context for it in self.inodes])
        self.interval = Interval(self.places, len(self.contexts))
        self.steps = Steps()
        self.most_steps = MOST_STEPS
        self.entries = Entries(lambda _: None)
        for it in self.cpus:
            it.log = Entries(self.entry)

    def entry(self, line: str) -> None:
        """An entry of a CPU, which is the interval's."""
        self.interval.entry(line)

    def step(self, who: object, kind: str) -> None:
        """A step, which is the interval's."""
        self.steps.made += 1
        self.interval.step([it.exact for it in self.domains])

    def come(self, moment: int) -> None:
        """The clock comes to a later moment, and may leave the interval."""
        if moment // self.every > self.clock // self.every:
            self.tell()
        super().come(moment)

    def is_full(self) -> bool:
        """Whether no further step may be made: a forecast goes on where a replay is spent, as many steps at a time."""
        if len(self.steps) == self.most_steps < MOST_FORECAST_STEPS and self.may_go_on():
            self.most_steps += MOST_STEPS
        return len(self.steps) == self.most_steps

    def may_go_on(self) -> bool:
        """Whether no moment of as many further steps could come too late."""
        waited = [self.clock, self.timer.next, *(it.until for it in self.tasks), *(it.until for it in self.flushers)]
        return max(waited) + self.pending() + MOST_STEPS * STEP_TICKS <= LAST_MOMENT

    def pending(self) -> int:
        """The ticks of all `tick` and `rest` lines, and of a rest for each pace."""
        rests = sum(it.ticks for actions in self.trace.actions.values() for it in actions if isinstance(it, RestAction))
        paces = sum(it.ticks for it in self.trace.paces.values())
        return rests + paces + sum(ticks for who, ticks in self.orders if who is None)

    def tell(self) -> None:
        """The rows of the interval that the clock is in, where a step was made in it. The next one begins."""
        told, self.interval = self.interval, Interval(self.places, len(self.contexts))
        if told.most:
            self.say(list(self.rows(told)))

    def rows(self, told: Interval) -> Iterator[str]:
        """The lines of an interval that has a step."""
        yield f"from {self.clock // self.every}"
        for number, it in enumerate(self.domains):
            yield f"domain {number} {it.exact} {told.most[number]} {it.limits.hard} {it.peak + it.base}"
        for number, it in enumerate(self.contexts):
            rates = f"{it.estimate.bandwidth} {it.estimate.average} {it.estimate.ratelimit}"
            yield f"context {number} {told.dirtied[number]} {told.written[number]} {rates}"
        for number, it in sorted(told.tasks.items()):
            yield f"task {number} {it.pages} {it.checks} {it.pauses} {it.ticks} {it.longest}"

    def run(self) -> None:
        """Runs it to its end, and tells all intervals."""
        self.say([f"forecast {self.every}"])
        super().run()
        self.tell()

    def journal(self) -> Iterator[str]:
        """What is told at the end."""
        yield f"totals {self.fresh} {self.done}"
        yield self.ending()
