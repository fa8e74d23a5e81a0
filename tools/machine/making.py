"""A trace of a machine and of jobs, scaled to what a trace can have, and what it was made of.

A scale of s divides pages of memory, of files and of a second by s, and leaves times as they are.
"""
from __future__ import annotations

from collections.abc import Iterator
from dataclasses import dataclass, field

from journals import trace_limits as most
from journals.ranges import CPUS
from laws.limits import GREATEST_LIMIT, PAGE, thresholds
from program.errors import OtherWords

from .fio import Job, Jobs
from .reading import EXPIRE, Disk, Seen

UNKNOWN_RATE = 25600
"""Pages a second of a disk whose bandwidth isn't told."""

MOST_SCALE = 1 << 20
PAGES_OF_A_REPLAY = 400_000
"""As many pages as a replay has steps for."""

FILE = 4096
"""Pages of a file in a trace for a forecast, at most. A scan looks at each page of a file, and there may be millions."""

REST = 10
"""Ticks of a job's rest, at least, where it has a rate."""


@dataclass
class Made:
    """The lines of a trace, and what it was made of."""

    lines: list[str]
    about: list[str] = field(default_factory=list)


def make(seen: Seen, disk: Disk, jobs: Jobs | None, scale: int | None, is_forecast: bool = False) -> Made:
    """The trace of a machine. Without a scale the least power of two is taken by which all fits: into a replay, or into a trace, of which a forecast
    is made."""
    pages = most.MOST_PAGES if is_forecast else PAGES_OF_A_REPLAY
    if scale is None:
        scale = 1
        while scale < MOST_SCALE and too_large(seen, disk, jobs, scale, pages):
            scale *= 2
    if fault := too_large(seen, disk, jobs, scale, pages):
        raise OtherWords(f"out of range: {fault} (--scale divides pages and rates)")
    file = FILE if is_forecast else None
    made = Made(list(lines(seen, disk, jobs, scale, file)))
    made.about = list(about(seen, disk, jobs, scale))
    if file:
        made.about.append(f"files have at most {file} pages: a scan looks at each page of a file")
    return made


def down(pages: int, scale: int) -> int:
    """So many pages, scaled: at least one."""
    return max(pages // scale, 1)


def settings(seen: Seen, scale: int) -> dict[str, int]:
    """The sysctls, those in bytes scaled."""
    return {name: value // scale if name.endswith("bytes") else value for name, value in seen.sysctls.items()}


def too_large(seen: Seen, disk: Disk, jobs: Jobs | None, scale: int, most_pages: int) -> str:
    """What a trace of this scale can't have, or more pages than these; or nothing."""
    for name in ("dirty", "dirty_background"):
        thresh = threshold_of(seen, name, scale)
        if thresh > GREATEST_LIMIT:
            return f"a threshold of {thresh} pages by vm.{name}_ratio or _bytes; a trace has at most {GREATEST_LIMIT}"
    rate = (disk.rate or UNKNOWN_RATE) // scale
    if rate > most.RATE.greatest:
        return f"a disk of {rate} pages a second; a trace has at most {most.RATE.greatest}"
    pages = sum(down(ceil_pages(job.size), scale) * job.many for job in jobs.jobs) if jobs else 0
    if pages > most_pages:
        return f"{pages} pages of files; {'a replay has steps for some' if most_pages == PAGES_OF_A_REPLAY else 'a trace has at most'} {most_pages}"
    return ""


def threshold_of(seen: Seen, name: str, scale: int) -> int:
    """A threshold, without the cut at the greatest."""
    if in_bytes := settings(seen, scale)[f"{name}_bytes"]:
        return ceil_pages(in_bytes)
    return seen.sysctls[f"{name}_ratio"] * 4096 // 100 * down(seen.available, scale) // 4096


def ceil_pages(size: int) -> int:
    """The pages of so many bytes."""
    return -(-size // PAGE)


def lines(seen: Seen, disk: Disk, jobs: Jobs | None, scale: int, file: int | None = None) -> Iterator[str]:
    """The trace, in which each task has one file, or as many as it needs of so many pages."""
    cpus = min(max(seen.cpus, CPUS.least), CPUS.greatest)
    yield f"cpus {cpus}"
    for name, value in settings(seen, scale).items():
        yield f"set {name} {value}"
    yield f"avail 0 {down(seen.available, scale)}"
    yield f"device 0 {down(disk.rate or UNKNOWN_RATE, scale)} {disk.least} {disk.greatest}"
    yield "context 0 0 0"
    if is_told(seen):
        yield f"expire 0 {seen.expire}"
    tasks = [job for job in jobs.jobs for _ in range(job.many)] if jobs else []
    files, inode = [], 0
    for number, job in enumerate(tasks):
        pages = down(ceil_pages(job.size), scale)
        files.append(Files(inode, file or pages))
        for first in range(0, pages, file or pages):
            yield f"inode {inode} 0 {min(file or pages, pages - first)}"
            inode += 1
        yield f"task {number} {number % cpus}"
    yield f"flusher 0 0 {cpus - 1}"
    for number, job in enumerate(tasks):
        yield from actions(number, job, scale, len(tasks), files[number])


def is_told(seen: Seen) -> bool:
    """Whether a trace can say after which time files are written."""
    return most.EXPIRE.least <= seen.expire <= most.EXPIRE.greatest


@dataclass(frozen=True)
class Files:
    """The files of a task: the first inode, and the pages of each but the last."""

    first: int
    pages: int

    def writes(self, task: int, page: int, many: int) -> Iterator[str]:
        """The lines that write so many pages from one on, as if all files were one."""
        while many:
            file, place = divmod(page, self.pages)
            some = min(many, self.pages - place)
            yield f"write {task} {self.first + file} {place} {some}"
            page, many = page + some, many - some


def actions(task: int, job: Job, scale: int, tasks: int, files: Files) -> Iterator[str]:
    """A task's writes, with rests where its job has a rate."""
    pages = down(ceil_pages(job.size), scale)
    if job.rate is None:
        yield from files.writes(task, 0, pages)
        return
    rate = job.rate / PAGE / scale
    fewest = -(-pages * 2 * tasks // most.MOST_ACTIONS)
    at_once = max(ceil_pages(job.call) // scale, round(rate * REST / 1000), fewest, 1)
    rest = max(round(1000 * at_once / rate), 1)
    for first in range(0, pages, at_once):
        yield from files.writes(task, first, min(at_once, pages - first))
        yield f"rest {task} {rest}"


def named(disk: Disk, seen: Seen) -> str:
    """A disk by its number and the name of its block device, and whether `/` lies there."""
    return f"disk {disk.name}{f' ({disk.block})' if disk.block else ''}{', the one of /' if disk.name == seen.root else ''}"


def about(seen: Seen, disk: Disk, jobs: Jobs | None, scale: int) -> Iterator[str]:
    """What it was made of."""
    thresh, background = thresholds(settings(seen, scale), down(seen.available, scale))
    divided = f"; pages of memory, of files and of a second are divided by {scale}, times are as they are"
    yield f"scale: {scale}" + (divided if scale > 1 else "")
    yield f"CPUs: {seen.cpus}" + ("" if seen.cpus <= CPUS.greatest else f", of which a trace has {CPUS.greatest}")
    yield f"available: {seen.available} pages, MemFree and the file pages of /proc/meminfo, without the kernel's reserves"
    yield "sysctls: " + ", ".join(f"vm.{name}={value}" for name, value in seen.sysctls.items())
    yield f"vm.{EXPIRE}={seen.expire}" + ("" if is_told(seen) else ": left out, as a trace can't say it")
    yield f"threshold {thresh}, background threshold {background} pages, scaled"
    told = f"{disk.rate} pages a second (its average in debugfs)" if disk.rate else f"not told, so {UNKNOWN_RATE} pages a second"
    yield f"{named(disk, seen)}: {told}, shares of {disk.least} to {disk.greatest} percent"
    for job in jobs.jobs if jobs else ():
        rate = f"{job.rate} bytes a second" if job.rate else "as fast as it may"
        yield f"job {job.name}: {job.many} of {job.size} bytes, {job.call} a call, {rate}"
    if jobs and jobs.passed:
        yield "passed over: " + "; ".join(jobs.passed)
