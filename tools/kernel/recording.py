"""How a text is taken: steps, each with what puts it back. What runs on the machine is recorded as it is, and nothing is set for it; a
demonstration has writers and a slow disk of its own, and sets the machine's thresholds for its time.

A step says what it does before it is done. Whatever ends the recording, an interrupt too, what was done is put back from the last step
to the first, and one that can't be is told.
"""
from __future__ import annotations

import contextlib
import os
import shlex
import shutil
import signal
import subprocess
import tempfile
import time
from collections.abc import Callable, Sequence
from dataclasses import dataclass

from program.errors import NotThere

TRACING = "/sys/kernel/tracing"
EVENTS = ("global_dirty_state", "bdi_dirty_ratelimit", "balance_dirty_pages")
PROGRAMS = ("losetup", "mkfs.ext4", "mount", "umount", "dd", "truncate")
READER = "cat"
THROTTLE = "/sys/fs/cgroup/blkio/blkio.throttle.write_bps_device"
SYSCTLS = "/proc/sys/vm"
MIB = 1 << 20
DEMO_SECONDS = 12
FOREVER = 10**9
FAST = 1000
"""MiB a second, for the size of the image where the disk isn't slowed."""


QUIET = 0.5
"""Seconds that the reader is given for what was printed last."""


@dataclass(frozen=True)
class Demo:
    """A demonstration: how many writers, MiB a second of the disk (0: as it is), and both thresholds in MiB."""

    writers: int = 3
    disk: int = 60
    dirty: int = 200
    background: int = 100


@dataclass(frozen=True)
class Wish:
    """What is to be recorded: where the text goes, for how many seconds (None: until an interrupt), while which command runs, or a
    demonstration."""

    output: str
    seconds: int | None = None
    command: tuple[str, ...] = ()
    demo: Demo | None = None


@dataclass(frozen=True)
class Step:
    """What is done, in words; doing it; what puts it back, in words; doing that."""

    says: str
    do: Callable[[], None]
    back: str
    undo: Callable[[], None]


def missing(wish: Wish) -> str:
    """What a recording needs and this machine hasn't, or nothing."""
    if not os.path.isdir(f"{TRACING}/events/writeback"):
        return f"tracefs isn't there, or has no writeback events: {TRACING} (as root: mount -t tracefs tracefs {TRACING})"
    if os.geteuid() != 0:
        return "a recording is made as root"
    gone = [name for name in (READER, *wish.command[:1], *(PROGRAMS if wish.demo else ())) if not shutil.which(name)]
    if gone:
        return f"these programs aren't there: {', '.join(gone)}"
    if wish.demo and wish.demo.disk and not os.path.exists(THROTTLE):
        return f"there is no {THROTTLE}, by which the disk is slowed: --disk 0 records it as fast as it is"
    return ""


def record(steps: Sequence[Step], say: Callable[[str], None]) -> None:
    """Does the steps, and puts all back, in which a further interrupt doesn't break."""
    def interrupt(*_: object) -> None:
        raise KeyboardInterrupt

    kept = {it: signal.signal(it, interrupt) for it in (signal.SIGINT, signal.SIGTERM, signal.SIGHUP)}
    begun: list[Step] = []
    try:
        for step in steps:
            say(step.says)
            begun.append(step)
            step.do()
    finally:
        for it in kept:
            signal.signal(it, signal.SIG_IGN)
        for step in reversed(begun):
            put_back(step, say)
        for it, handler in kept.items():
            signal.signal(it, handler)


def put_back(step: Step, say: Callable[[str], None]) -> None:
    """Undoes a step, or says that it can't."""
    say(step.back)
    try:
        step.undo()
    except (OSError, subprocess.SubprocessError) as error:
        say(f"that could not be done: {error}")


def write(path: str, value: str) -> None:
    """Writes a setting."""
    with open(path, "w", encoding="ascii") as file:
        file.write(value)


def read(path: str) -> str:
    """Reads a setting."""
    try:
        with open(path, encoding="ascii") as file:
            return file.read().strip()
    except OSError as error:
        raise NotThere(f"{path}: {error.strerror}") from error


def run(*words: str) -> str:
    """Runs a program, and answers what it printed."""
    return subprocess.run(words, check=True, capture_output=True, text=True).stdout.strip()


class Recording:
    """The steps of a recording, and what they share."""

    def __init__(self, wish: Wish) -> None:
        self.wish = wish
        self.work = os.path.join(tempfile.gettempdir(), f"wb-record-{os.getpid()}")
        self.instance = f"{TRACING}/instances/wb-record-{os.getpid()}"
        self.device = ""
        self.running: list[subprocess.Popen[bytes]] = []
        self.command: subprocess.Popen[bytes] | None = None
        self.status = 0
        """With which the command ended."""

    def steps(self) -> list[Step]:
        """All of them, in order."""
        wish = self.wish
        trace = Step(f"records {', '.join(EVENTS)} in a buffer of its own, {self.instance}, to {wish.output}", self.trace,
                     "takes that buffer away", self.untrace)
        if wish.demo:
            return [*self.demo_steps(wish.demo), trace, self.writers_step(wish.demo)]
        if wish.command:
            return [trace, Step(f"runs {shlex.join(wish.command)}", self.run_command, "ends that command, if it runs", self.end_command)]
        until = "until an interrupt (Ctrl-C)" if wish.seconds is None else f"for {wish.seconds} s"
        return [trace, Step(f"waits {until}, whatever runs meanwhile", self.wait, "waits no longer", lambda: None)]

    def seconds(self) -> int:
        """How long writers of a demonstration write."""
        return DEMO_SECONDS if self.wish.seconds is None else self.wish.seconds

    def demo_steps(self, demo: Demo) -> list[Step]:
        """A slow disk, and thresholds."""
        work = self.work
        size = 2 * ((demo.disk or FAST) * self.seconds() + demo.dirty) + 64
        names = ("dirty_bytes", "dirty_ratio", "dirty_background_bytes", "dirty_background_ratio")
        before = {name: read(f"{SYSCTLS}/{name}") for name in names}
        kept = [name for name in names if before[name] != "0"]
        found = [
            Step(f"makes {work} with an image of {size} MiB in it, which takes room only as it is written",
                 lambda: self.make(size), f"takes {work} away", lambda: shutil.rmtree(work)),
            Step("gives the image to a free loop device, with direct I/O", self.attach, "takes the loop device off", self.detach),
            Step(f"makes ext4 on that device, and mounts it at {work}/at", self.mount, f"unmounts {work}/at",
                 lambda: run("umount", f"{work}/at") and None),
            Step(f"slows the device to {demo.disk} MiB a second: {THROTTLE}", lambda: self.slow(demo.disk * MIB),
                 "lets the device go at its own rate again", lambda: self.slow(0)),
            Step(f"sets vm.dirty_bytes to {demo.dirty} MiB and vm.dirty_background_bytes to {demo.background} MiB, for the whole machine",
                 lambda: self.set_limits(demo), "sets " + ", ".join(f"vm.{name} to {before[name]}" for name in kept) + " again",
                 lambda: self.unset_limits(kept, before)),
        ]
        return [step for step in found if demo.disk or THROTTLE not in step.says]

    def writers_step(self, demo: Demo) -> Step:
        """The writers of a demonstration."""
        return Step(f"runs {demo.writers} dd, each of which writes a file of its own with 64 KiB a call, for {self.seconds()} s",
                    lambda: self.write_files(demo.writers), "ends those dd", self.end)

    def wait(self) -> None:
        """Until the time is over, or an interrupt, which ends it well where no time was said."""
        try:
            time.sleep(FOREVER if self.wish.seconds is None else self.wish.seconds)
        except KeyboardInterrupt:
            if self.wish.seconds is not None:
                raise

    def run_command(self) -> None:
        """Runs the command to its end, or until the time is over."""
        try:
            self.command = subprocess.Popen(self.wish.command)
        except OSError as error:
            raise NotThere(f"{self.wish.command[0]}: {error.strerror}") from error
        try:
            self.status = self.command.wait(self.wish.seconds)
        except subprocess.TimeoutExpired:
            pass

    def end_command(self) -> None:
        """Ends the command where it still runs."""
        if self.command and self.command.poll() is None:
            self.command.terminate()
            self.command.wait()

    def make(self, size: int) -> None:
        """The image, and where it is mounted."""
        os.makedirs(f"{self.work}/at")
        run("truncate", "-s", f"{size}M", f"{self.work}/image")

    def attach(self) -> None:
        """The loop device."""
        self.device = run("losetup", "--find", "--show", "--direct-io=on", f"{self.work}/image")

    def detach(self) -> None:
        """Off again, where it is on."""
        if self.device:
            run("losetup", "--detach", self.device)

    def mount(self) -> None:
        """A filesystem."""
        run("mkfs.ext4", "-q", self.device)
        run("mount", self.device, f"{self.work}/at")

    def slow(self, bytes_a_second: int) -> None:
        """At most so many; 0 is no limit."""
        number = os.stat(self.device).st_rdev
        write(THROTTLE, f"{os.major(number)}:{os.minor(number)} {bytes_a_second}")

    def set_limits(self, demo: Demo) -> None:
        """The thresholds of the machine."""
        write(f"{SYSCTLS}/dirty_background_bytes", str(demo.background * MIB))
        write(f"{SYSCTLS}/dirty_bytes", str(demo.dirty * MIB))

    def unset_limits(self, kept: Sequence[str], before: dict[str, str]) -> None:
        """As they were: setting bytes clears the ratio, and the other way round."""
        for name in kept:
            write(f"{SYSCTLS}/{name}", before[name])

    def trace(self) -> None:
        """A buffer of its own, and what reads it."""
        os.mkdir(self.instance)
        for event in EVENTS:
            write(f"{self.instance}/events/writeback/{event}/enable", "1")
        with open(self.wish.output, "wb") as output:
            self.running.append(subprocess.Popen([READER, f"{self.instance}/trace_pipe"], stdout=output, start_new_session=True))

    def untrace(self) -> None:
        """Ends the reader when it has read what was printed last, and takes the buffer away."""
        with contextlib.suppress(OSError):
            write(f"{self.instance}/tracing_on", "0")
        time.sleep(QUIET)
        self.end()
        os.rmdir(self.instance)

    def write_files(self, writers: int) -> None:
        """The writers, until the time is over."""
        for number in range(writers):
            words = ["dd", "if=/dev/zero", f"of={self.work}/at/{number}", "bs=64k", "status=none"]
            self.running.append(subprocess.Popen(words))
        time.sleep(self.seconds())

    def end(self) -> None:
        """Ends what was started, the last first: the writers, then the reader."""
        while self.running:
            process = self.running.pop()
            process.terminate()
            process.wait()
