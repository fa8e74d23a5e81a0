"""A job file of fio: sections of `name=value`. Understood are rw, size, bs, rate and numjobs; each other name is told as passed over."""
from __future__ import annotations

import re
from dataclasses import dataclass, field

from journals.whole_text import read_whole
from program.errors import Cause, Fault

UNITS = {"": 1, "k": 1 << 10, "m": 1 << 20, "g": 1 << 30, "t": 1 << 40}
SIZE = re.compile(r"(\d+)\s*([kmgt]?)(?:i?b)?", re.IGNORECASE)
WRITES = {"write", "randwrite", "rw", "readwrite", "randrw", "trimwrite"}
READS = {"read", "randread", "trim", "randtrim"}
UNDERSTOOD = ("rw", "readwrite", "size", "filesize", "bs", "blocksize", "rate", "numjobs")
MOST_JOBS = 256


@dataclass(frozen=True)
class Job:
    """A job that writes: its name, bytes in all, bytes a call, bytes a second (None: as fast as it may), and how many there are."""

    name: str
    size: int
    call: int
    rate: int | None
    many: int


@dataclass
class Jobs:
    """What a job file says: jobs that write, and the names that were passed over."""

    jobs: list[Job] = field(default_factory=list)
    passed: list[str] = field(default_factory=list)


@dataclass
class Section:
    """A section: its name, the line of it, and each name's value with its line."""

    name: str
    line: int
    values: dict[str, tuple[str, int]]


def read_jobs(path: str) -> Jobs:
    """The jobs of a file."""
    text = read_whole(path)
    sections, common = sections_of(text.path, text.data.decode("latin-1"))
    found = Jobs()
    for section in sections:
        job = job_of(text.path, section, common, found)
        if job:
            found.jobs.append(job)
    if not found.jobs:
        raise Fault(text.path, 0, Cause.MISSING, "no job of it writes")
    return found


def sections_of(path: str, text: str) -> tuple[list[Section], dict[str, tuple[str, int]]]:
    """The sections, and what those named global say for all."""
    sections: list[Section] = []
    common: dict[str, tuple[str, int]] = {}
    here: dict[str, tuple[str, int]] | None = None
    for number, line in enumerate(text.splitlines(), 1):
        line = re.split(r"\s[;#]|^[;#]", line)[0].strip()
        if not line:
            continue
        if line.startswith("[") and line.endswith("]") and len(line) > 2:
            here = common if line == "[global]" else {}
            if here is not common:
                sections.append(Section(line[1:-1], number, here))
        elif here is None:
            raise Fault(path, number, Cause.OUT_OF_PLACE, "no section stands before it")
        else:
            name, _, value = line.partition("=")
            here[name.strip()] = (value.strip(), number)
    return sections, common


def job_of(path: str, section: Section, common: dict[str, tuple[str, int]], found: Jobs) -> Job | None:
    """A job, or none where it doesn't write."""
    said = {**common, **section.values}
    found.passed += [f"[{section.name}] {name}" for name in section.values if name not in UNDERSTOOD]
    found.passed += [f"[global] {name}" for name in common if name not in UNDERSTOOD and f"[global] {name}" not in found.passed]
    kind, line = said.get("rw", said.get("readwrite", ("read", section.line)))
    kind = kind.partition(":")[0]
    if kind in READS:
        found.passed.append(f"[{section.name}], which doesn't write")
        return None
    if kind not in WRITES:
        raise Fault(path, line, Cause.BAD_LINE, f"rw={kind} is not known")
    if "size" not in said and "filesize" not in said:
        raise Fault(path, section.line, Cause.MISSING, f"[{section.name}] has no size")
    size = bytes_of(path, *said.get("size", said.get("filesize", ("", 0))))
    call = bytes_of(path, *said.get("bs", said.get("blocksize", ("4k", section.line))))
    rate = None
    if "rate" in said:
        text, line = said["rate"]
        parts = text.split(",")
        rate = bytes_of(path, parts[1] if len(parts) > 1 and parts[1] else parts[0], line)
    many, line = said.get("numjobs", ("1", section.line))
    if not many.isdecimal() or not 1 <= int(many) <= MOST_JOBS:
        raise Fault(path, line, Cause.OUT_OF_RANGE, f"numjobs={many}: from 1 to {MOST_JOBS}")
    if not size or not call or rate == 0:
        raise Fault(path, section.line, Cause.OUT_OF_RANGE, f"[{section.name}]: size, bs and rate are above 0")
    return Job(section.name, size, call, rate, int(many))


def bytes_of(path: str, text: str, line: int) -> int:
    """A number of bytes, with its unit, of 1024."""
    match = SIZE.fullmatch(text.partition(",")[0].strip())
    if not match:
        raise Fault(path, line, Cause.BAD_LINE, f"'{text}' is no number of bytes")
    return int(match[1]) * UNITS[match[2].lower()]
