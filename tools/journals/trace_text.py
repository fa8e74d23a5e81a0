"""The text of a trace, as `wbsim check` prints it."""
from __future__ import annotations

from collections.abc import Iterator

from .trace import Order, RestAction, Tick, Trace, WriteAction
from .trace_limits import SETTINGS


def trace_text(trace: Trace) -> Iterator[str]:
    """The lines of a trace, in the order of their sorts."""
    yield f"cpus {trace.cpus}"
    yield f"cap {trace.cap}"
    yield from (f"set {name} {trace.settings[name]}" for name in SETTINGS)
    yield from (f"avail {tick} {pages}" for tick, pages in trace.avail)
    yield from devices_text(trace)
    yield from contexts_text(trace)
    yield from (f"inode {number} {it.context} {it.pages}" for number, it in enumerate(trace.inodes))
    yield from (f"task {number} {cpu}" for number, cpu in enumerate(trace.tasks))
    yield from (f"pace {number} {it.pages} {it.ticks}" for number, it in sorted(trace.paces.items()))
    yield from (f"flusher {number} {it.device} {it.cpu}" for number, it in enumerate(trace.flushers))
    following = {task: iter(actions) for task, actions in trace.actions.items()}
    yield from (action_text(trace, task, next(following[task])) for task in trace.acting)
    yield from map(order_text, trace.orders)
    if trace.halt is not None:
        yield f"halt {trace.halt}"


def devices_text(trace: Trace) -> Iterator[str]:
    """The devices, and then what further lines say of them."""
    devices = list(enumerate(trace.devices))
    yield from (f"device {number} {it.rate} {it.least} {it.greatest}" for number, it in devices)
    yield from (f"strict {number}" for number, it in devices if it.is_strict)
    yield from (f"chunk {number} {it.chunk}" for number, it in devices if it.chunk is not None)
    yield from (f"cyclic {number}" for number, it in devices if it.is_cyclic)


def contexts_text(trace: Trace) -> Iterator[str]:
    """The cgroups and contexts, and then what further lines say of contexts."""
    yield from (f"cgroup {number} {it.file_pages} {it.headroom}" for number, it in enumerate(trace.cgroups, 1))
    contexts = list(enumerate(trace.contexts))
    yield from (f"context {number} {it.device} {it.domain}" for number, it in contexts)
    yield from (f"expire {number} {it.expire}" for number, it in contexts if it.expire is not None)
    firsts = ((number, it.estimate) for number, it in contexts)
    yield from (f"estimate {number} {it.bandwidth} {it.average} {it.ratelimit}" for number, it in firsts if it is not None)


def action_text(trace: Trace, task: int, it: WriteAction | RestAction) -> str:
    """An action. A write names its pages within the inode."""
    if isinstance(it, RestAction):
        return f"rest {task} {it.ticks}"
    return f"write {task} {it.inode} {it.first - trace.inodes[it.inode].first} {it.pages}"


def order_text(it: Order | Tick) -> str:
    """A line that orders steps."""
    if isinstance(it, Tick):
        return f"tick {it.ticks}"
    return f"order {'timer' if it.cpu is None else it.cpu} {it.steps}"
