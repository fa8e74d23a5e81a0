"""Has all jobs of a folder done: by GNU parallel, or one after another where that isn't there."""
from __future__ import annotations

import os
import shlex
import shutil
import signal
import subprocess
import sys
import time
from collections.abc import Iterator
from contextlib import contextmanager
from dataclasses import dataclass

from program.errors import NotThere, WriteFault

from . import files, hosts, joblog, listing
from .kinds import Row
from .origin import ROOT
from .plan import Plan
from .watching import watched

SAID = "said"
HOME = os.path.join(ROOT, "out", "parallel")

DEATH_OF_PARENT = 1
"""The option of prctl by which a process gets a signal where its parent ends."""

DEBIAN = "Debian's package is parallel"


@dataclass(frozen=True)
class How:
    """How jobs are done: so many side by side, on which hosts, where the repository lies there, and how often one is tried."""

    slots: int | None
    hosts: str | None
    there: str
    retries: int


@dataclass(frozen=True)
class Said:
    """What the jobs of one call print: rows that aren't files yet, and errors."""

    rows: str
    errors: str

    @staticmethod
    def new(folder: str) -> Said:
        """That of a new call."""
        os.makedirs(os.path.join(folder, SAID), exist_ok=True)
        return Said.of(os.path.join(folder, SAID, f"{time.time_ns()}-{os.urandom(4).hex()}"))

    @staticmethod
    def of(stem: str) -> Said:
        """That of a name."""
        return Said(f"{stem}.rows", f"{stem}.err")

    @staticmethod
    def all(folder: str) -> list[Said]:
        """Those of all calls, the latest one last."""
        path = os.path.join(folder, SAID)
        stems = {name.rpartition(".")[0] for name in os.listdir(path)} if os.path.isdir(path) else set()
        return [Said.of(os.path.join(path, stem)) for stem in sorted(stems)]

    def lines(self) -> list[str]:
        """The lines of its errors."""
        return [line for line in files.read(self.errors).decode("utf-8", "replace").splitlines() if line.strip()]


def carry_out(folder: str, planned: Plan, how: How) -> list[str]:
    """Does each job that isn't done. The answer names those that have failed, and says why."""
    take_said(folder, planned)
    parallel = gnu_parallel()
    if how.hosts and not parallel:
        raise NotThere(f"--hosts needs GNU parallel ({DEBIAN})")
    if left := missing(folder, planned):
        joblog.keep_done(folder, set(range(1, planned.jobs + 1)) - set(left))
        said = Said.new(folder)
        with watched(folder, planned, said.rows):
            if parallel:
                with parted(folder, planned, how) as words:
                    hand_over([parallel, *common(folder, how), *words], home(folder, how), said)
            else:
                print(f"wb: GNU parallel isn't there ({DEBIAN}): one job after another", file=sys.stderr)
                one_by_one(folder, planned, said, how.retries)
        take_said(folder, planned)
    return [reason(folder, planned, job) for job in missing(folder, planned)]


def missing(folder: str, planned: Plan) -> list[int]:
    """The jobs whose file isn't there."""
    return [job for job in range(1, planned.jobs + 1) if not os.path.exists(files.done_path(folder, job))]


def gnu_parallel() -> str | None:
    """Where GNU parallel is. Another program of that name is none: GNU's is a script that says so."""
    path = shutil.which("parallel")
    if path:
        with open(path, "rb") as file:
            head = file.read(4096)
        return path if head.startswith(b"#!") and b"GNU" in head else None
    return None


def common(folder: str, how: How) -> list[str]:
    """What GNU parallel is told in any case."""
    words = ["--plain", "--joblog", os.path.join(folder, joblog.FILE), "--resume", "--retries", str(how.retries)]
    return words + (["-j", str(how.slots)] if how.slots else [])


@contextmanager
def parted(folder: str, planned: Plan, how: How) -> Iterator[list[str]]:
    """The words for jobs on this machine, or on hosts, where the inputs lie meanwhile."""
    if how.hosts is None:
        yield ["-a", os.path.join(folder, listing.LIST)]
        return
    with hosts.placed(how.hosts, folder, planned, how.there) as (logins, at):
        path = os.path.join(folder, "hosts.list")
        with open(path, "w", encoding="utf-8") as file:
            file.writelines(line + "\n" for line in listing.lines(at, planned, [os.path.join(how.there, "tools", "wb")], "--show"))
        yield ["--sshloginfile", logins, "-a", path]


def home(folder: str, how: How) -> str:
    """Where GNU parallel keeps what it has found out of a machine, which takes as long as its start: for this one in `out/`."""
    for path in [HOME] * (how.hosts is None) + [os.path.join(folder, "parallel")]:
        try:
            os.makedirs(path, exist_ok=True)
        except OSError:
            continue
        if os.access(path, os.W_OK):
            return path
    raise WriteFault(path)


def hand_over(words: list[str], home: str, said: Said) -> None:
    """Runs GNU parallel to its end. It begins no more jobs where this process has gone."""
    environment = {**os.environ, "PARALLEL_SHELL": "/bin/sh", "PARALLEL_HOME": home, "PARALLEL_SSH": shlex.join(hosts.ssh())}
    with open(said.rows, "wb") as rows, open(said.errors, "wb") as errors:
        process = subprocess.Popen(words, stdin=subprocess.DEVNULL, stdout=rows, stderr=errors, env=environment, preexec_fn=end_with_parent)
        try:
            process.wait()
        except BaseException:
            for _ in range(2):
                process.send_signal(signal.SIGTERM)
            process.wait()
            raise


def end_with_parent() -> None:
    """Asks the system for a signal where the parent ends, after which GNU parallel begins no job more, and waits for those that it has."""
    import ctypes

    ctypes.CDLL(None).prctl(DEATH_OF_PARENT, signal.SIGHUP)


def one_by_one(folder: str, planned: Plan, said: Said, retries: int) -> None:
    """Each job in turn, as often as it may be tried."""
    lines = listing.lines(folder, planned)
    with open(said.errors, "wb") as errors:
        for job in missing(folder, planned):
            for _ in range(retries):
                begin = time.time()
                status = subprocess.run(["/bin/sh", "-c", f"exec {lines[job - 1]}"], stdin=subprocess.DEVNULL, stderr=errors,
                                        check=False).returncode
                joblog.add(folder, job, begin, time.time() - begin, status, lines[job - 1])
                if not status:
                    break


def take_said(folder: str, planned: Plan) -> None:
    """Makes the files of those jobs of which all rows were printed, on this machine or on hosts, and that were not taken yet."""
    left = missing(folder, planned)
    rows: dict[int, Row] = {}
    for said in Said.all(folder) if left else []:
        rows |= files.rows_of(files.read(said.rows), range(planned.runs))
    for job in left:
        if all(run in rows for run in planned.runs_of(job)):
            files.publish(folder, job, [rows[run] for run in planned.runs_of(job)])


def reason(folder: str, planned: Plan, job: int) -> str:
    """Which job has failed, where, and why, as far as is known."""
    runs = planned.runs_of(job)
    name = f"job {job} (run {runs[0]})" if len(runs) == 1 else f"job {job} (runs {runs[0]} to {runs[-1]})"
    entry = next((it for it in reversed(joblog.entries(folder)) if it.job == job), None)
    said = Said.all(folder)[-1].lines()
    own = [line.partition(f"job {job}: ")[2] for line in said if line.startswith(f"wb: job {job}: ")]
    if entry is None:
        return f"{name} was not done" + "".join(f": {line}" for line in said[-1:])
    where = "" if entry.host == ":" else f" on {entry.host}"
    return f"{name} failed{where}, status {entry.status}" + "".join(f": {line}" for line in own[-1:] or said[-1:])
