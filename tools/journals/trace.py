"""What a trace says: a machine and what its tasks do."""
from __future__ import annotations

from collections.abc import Iterator
from dataclasses import dataclass, field


@dataclass(frozen=True)
class Device:
    """A device: pages a second, its least and greatest share in percent, and whether each context is held to its own part. Where lines say
    so, a scan for it ends with so many pages, and goes on where the last one ended."""

    rate: int
    least: int
    greatest: int
    is_strict: bool = False
    chunk: int | None = None
    is_cyclic: bool = False


@dataclass(frozen=True)
class Cgroup:
    """A cgroup: its file pages, and the pages that it may still be charged."""

    file_pages: int
    headroom: int


@dataclass(frozen=True)
class FirstEstimate:
    """The estimate of a context at the opening, in pages a second."""

    bandwidth: int
    average: int
    ratelimit: int


@dataclass(frozen=True)
class Context:
    """A context: the pages of one domain on one device. Where lines say so, its inodes are due after so many hundredths of a second, and its
    first estimate isn't the one that all have."""

    device: int
    domain: int
    expire: int | None = None
    estimate: FirstEstimate | None = None


@dataclass(frozen=True)
class Inode:
    """An inode: its context, its first page among all, and how many it has."""

    context: int
    first: int
    pages: int


@dataclass(frozen=True)
class Pace:
    """A task rests for so many ticks after each so many of its pages, where a further one follows."""

    pages: int
    ticks: int


@dataclass(frozen=True)
class Flusher:
    """A flusher: its device and its CPU."""

    device: int
    cpu: int


@dataclass(frozen=True)
class WriteAction:
    """A task dirties pages, numbered among all, in order."""

    inode: int
    first: int
    pages: int


@dataclass(frozen=True)
class RestAction:
    """A task rests."""

    ticks: int


@dataclass(frozen=True)
class Order:
    """A CPU, or the timer (`None`), takes up to so many steps."""

    cpu: int | None
    steps: int


@dataclass(frozen=True)
class Tick:
    """The clock moves."""

    ticks: int


@dataclass
class Trace:
    """A machine, what its tasks do, and what orders its steps."""

    cpus: int = 0
    cap: int = 1024
    settings: dict[str, int] = field(default_factory=lambda: {
        "dirty_ratio": 20, "dirty_background_ratio": 10, "dirty_bytes": 0, "dirty_background_bytes": 0})
    avail: list[tuple[int, int]] = field(default_factory=list)
    devices: list[Device] = field(default_factory=list)
    cgroups: list[Cgroup] = field(default_factory=list)
    contexts: list[Context] = field(default_factory=list)
    inodes: list[Inode] = field(default_factory=list)
    tasks: list[int] = field(default_factory=list)
    paces: dict[int, Pace] = field(default_factory=dict)
    flushers: list[Flusher] = field(default_factory=list)
    actions: dict[int, list[WriteAction | RestAction]] = field(default_factory=dict)
    acting: list[int] = field(default_factory=list)
    """The task of each action, in the order of the lines."""

    orders: list[Order | Tick] = field(default_factory=list)
    halt: int | None = None
    pages: int = 0

    @property
    def domains(self) -> int:
        """The global domain, 0, and a domain for each cgroup."""
        return 1 + len(self.cgroups)

    def contexts_of(self, domain: int) -> list[int]:
        """The contexts whose pages a domain counts: all for the global one."""
        return [number for number, context in enumerate(self.contexts) if domain in (0, context.domain)]

    def is_strict(self, context: int) -> bool:
        """Whether a context is one of a strict device."""
        return self.devices[self.contexts[context].device].is_strict

    def strict_contexts(self) -> list[int]:
        """The contexts of strict devices."""
        return [context for context in range(len(self.contexts)) if self.is_strict(context)]

    def is_ageing(self, device: int) -> bool:
        """Whether a device's inodes are written for their age: a context of it says after how long."""
        return any(context.device == device and context.expire is not None for context in self.contexts)

    def ageing_devices(self) -> list[int]:
        """The devices whose inodes are written for their age."""
        return [device for device in range(len(self.devices)) if self.is_ageing(device)]

    def works(self, task: int) -> Iterator[WriteAction | RestAction]:
        """What a task does, one after another: its actions, each write cut where its pace has a rest."""
        pace, number = self.paces.get(task), 0
        for action in self.actions.get(task, []):
            if pace is None or isinstance(action, RestAction):
                yield action
                continue
            done = 0
            while done < action.pages:
                if number and number % pace.pages == 0:
                    yield RestAction(pace.ticks)
                many = min(action.pages - done, pace.pages - number % pace.pages)
                yield WriteAction(action.inode, action.first + done, many)
                done, number = done + many, number + many

    def writers(self) -> set[tuple[int, int]]:
        """The pairs of a task and the context of an inode that it writes."""
        return {(task, self.inodes[action.inode].context)
                for task, actions in self.actions.items() for action in actions if isinstance(action, WriteAction)}
