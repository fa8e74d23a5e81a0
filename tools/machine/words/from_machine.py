"""`wb from-machine`: a trace's first lines from a machine in use, and its tasks from a job file of fio."""
from __future__ import annotations

import argparse
import os
import sys

from program.errors import NotThere, OtherWords
from program.output import Staging, publish
from program.statuses import Status

from ..fio import read_jobs
from ..making import make, named
from ..reading import Disk, Seen, machine

ABOUT = ".about"
"""Ends the name of the file that says what a trace was made of, since a trace has no comments."""


def add(command: argparse.ArgumentParser) -> None:
    """Where the trace goes, and what it is made of."""
    command.add_argument("trace", metavar="TRACE", help="where the trace goes; what it was made of goes to TRACE.about")
    command.add_argument("--fio", metavar="JOBS", help="a job file of fio: rw, size, bs, rate, numjobs of the jobs that write")
    command.add_argument("--disk", metavar="N:M", help="the disk, as /sys/class/bdi names it (that of /, else the first; no zram, loop or "
                         "empty one)")
    command.add_argument("--forecast", action="store_true", help="with as many pages as a trace may have, not only as a replay has steps for")
    command.add_argument("--scale", type=int, help="divides pages and rates (the least power of two by which all fits)")
    command.add_argument("--root", default="/", metavar="DIRECTORY", help="where proc and sys are (/)")
    command.add_argument("--force", action="store_true", help="write over files that lie there")


def run(given: argparse.Namespace) -> Status:
    """Writes both files, and prints their paths."""
    if given.scale is not None and given.scale < 1:
        raise OtherWords("--scale is at least 1")
    directory, name = os.path.split(given.trace)
    if not name:
        raise OtherWords(f"'{given.trace}' names no file")
    seen = machine(given.root)
    disk = disk_of(seen, given.disk)
    if given.disk is None:
        print(f"wb: {named(disk, seen)}", file=sys.stderr)
    made = make(seen, disk, read_jobs(given.fio) if given.fio else None, given.scale, given.forecast)
    with Staging(directory or ".", given.force) as staging:
        for path, lines in ((name, made.lines), (name + ABOUT, made.about)):
            with open(staging.path(path), "w", encoding="latin-1", newline="\n") as file:
                file.writelines(f"{line}\n" for line in lines)
        publish(staging)
    return Status.GOOD


def disk_of(seen: Seen, name: str | None) -> Disk:
    """The disk of a name, else that of `/`, else the first one to which files may be written."""
    if name is None:
        found = next((disk for disk in seen.disks if disk.name == seen.root and disk.is_disk), None)
        found = found or next((disk for disk in seen.disks if disk.is_disk), None)
    else:
        found = next((disk for disk in seen.disks if disk.name == name), None)
    if found is None:
        names = ", ".join(disk.name + (f" ({disk.block})" if disk.block else "") for disk in seen.disks) or "none"
        raise NotThere(f"there is no disk {name or 'in sys/class/bdi to which files are written'} (there: {names})")
    return found
