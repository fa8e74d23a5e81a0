"""The file of a job: a line of JSON for each run.

A job that isn't done has a `.part`, to which each row is added when its run has ended. Who adds to it holds its lock, so that a second one
for the same job waits, and goes on from there.
"""
from __future__ import annotations

import fcntl
import json
import os
from contextlib import contextmanager

from program.output import writing

TYPE_CHECKING = False
if TYPE_CHECKING:
    from collections.abc import Iterable, Iterator
    from typing import BinaryIO

    from .kinds import Row

DONE, RUN = "done", "run"
ENCODER = json.JSONEncoder(separators=(",", ":"))


def done_path(folder: str, job: int) -> str:
    """The file that a job makes."""
    return os.path.join(folder, DONE, f"{job}.rows")


def part_path(folder: str, job: int) -> str:
    """The file of a job that isn't done."""
    return os.path.join(folder, DONE, f"{job}.part")


def rows_of(data: bytes, wanted: range) -> dict[int, Row]:
    """The whole rows of some runs, each once. A line that was cut off is none."""
    rows: dict[int, Row] = {}
    for line in data[: data.rfind(b"\n") + 1].splitlines():
        try:
            row = json.loads(line)
            if row[RUN] in wanted:
                rows.setdefault(row[RUN], row)
        except (ValueError, KeyError, TypeError):
            continue
    return rows


def line_of(row: Row) -> bytes:
    """A row as a line."""
    return ENCODER.encode(row).encode("ascii") + b"\n"


def read(path: str) -> bytes:
    """A file, or nothing where there is none."""
    try:
        with open(path, "rb") as file:
            return file.read()
    except FileNotFoundError:
        return b""


@contextmanager
def part(folder: str, job: int) -> Iterator[BinaryIO | None]:
    """The part of a job, whose lock is held, after its last whole line; nothing where the job is done. What stands in it is read first."""
    path = part_path(folder, job)
    with writing(path):
        os.makedirs(os.path.dirname(path), exist_ok=True)
    while not os.path.exists(done_path(folder, job)):
        with open(path, "a+b", buffering=0) as file:
            fcntl.flock(file, fcntl.LOCK_EX)
            if not is_still(file, path):
                continue
            if os.path.exists(done_path(folder, job)):
                os.remove(path)
                break
            file.seek(0)
            file.truncate(file.read().rfind(b"\n") + 1)
            yield file
            return
    yield None


def is_still(file: BinaryIO, path: str) -> bool:
    """Whether an open file is still the one of that name: another process may have ended the job meanwhile."""
    try:
        return os.path.samestat(os.fstat(file.fileno()), os.stat(path))
    except FileNotFoundError:
        return False


def publish(folder: str, job: int, rows: Iterable[Row]) -> None:
    """Makes the file of a job of rows that came from elsewhere, whole or not at all."""
    path = done_path(folder, job)
    with writing(path):
        os.makedirs(os.path.dirname(path), exist_ok=True)
        with open(f"{path}.new", "wb") as file:
            file.writelines(map(line_of, rows))
        os.replace(f"{path}.new", path)
