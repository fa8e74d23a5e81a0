"""What the programs of a copy print of inputs, as the copy stands when this is loaded."""
from __future__ import annotations

import hashlib
from collections.abc import Callable

from forecasting.machine import Forecast
from journals.law_reader import law_of
from journals.whole_text import WholeText
from laws.counters import error_of
from laws.decision import DomainRead, Task, decide
from laws.limits import Limits
from laws.position import position
from laws.strict import strict_position
from replay import Machine


def replayed(text: str, steps: bool) -> str:
    """The journal, or all of it but its lines of steps."""
    machine = Machine(text)
    machine.run()
    if not steps:
        machine.steps = []
    return "".join(line + "\n" for line in machine.journal())


def forecasted(text: str, _: bool) -> str:
    """The forecast of a trace, before which its first line stands."""
    first, _, trace = text.partition("\n")
    lines: list[str] = []
    machine = Forecast(trace, int(first.removeprefix("forecast ")), lines.extend)
    machine.run()
    return "".join(line + "\n" for line in [*lines, *machine.journal()])


def decided(text: str, _: bool) -> str:
    """What `law` writes."""
    law = law_of(WholeText("a law text", text.encode("latin-1")))
    reads = [DomainRead(Limits(it.thresh, it.background, it.hard), it.pages, it.context_thresh) for it in law.domains]
    ratios = [position(*it, law.pages, law.average).ratio for it in reads]
    task = Task(law.dirtied, law.allowance, law.paused_until)
    it = decide(reads, law.pages, law.average, law.rate_limit, task, law.now, error_of(law.cpus), law.cap)
    numbers = f"{it.task.dirtied} {it.task.allowance} {it.task.ended}"
    return f"ratio {' '.join(map(str, ratios))}\ndecision {it.kind.value} {it.pause} {it.left}\ntask {numbers}\n"


def strict_ratio(text: str, _: bool) -> str:
    """The strict ratio of a domain's read and a context's pages."""
    *limits, dirty, context_limit, pages = map(int, text.split(" "))
    return f"{strict_position(DomainRead(Limits(*limits), dirty, context_limit), pages).ratio}\n"


COMMANDS: dict[str, Callable[[str, bool], str]] = {"replay": replayed, "forecast": forecasted, "law": decided, "strict": strict_ratio}


def answer(command: str, steps: bool, text: str) -> str:
    """The sum of what is printed of an input, or how it ended otherwise; one line."""
    try:
        return hashlib.sha256(COMMANDS[command](text, steps).encode("latin-1")).hexdigest()
    except Exception as error:  # pylint: disable=broad-except
        return f"{type(error).__name__} {error}".replace("\n", " ")
