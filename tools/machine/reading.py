"""What /proc and /sys tell of a machine: its CPUs, the pages that may be dirty, the sysctls, and the shares of its disks."""
from __future__ import annotations

import os
import re
from dataclasses import dataclass, field

from program.errors import Cause, Fault, NotThere, ReadFault

SYSCTLS = ("dirty_ratio", "dirty_background_ratio", "dirty_bytes", "dirty_background_bytes")
EXPIRE = "dirty_expire_centisecs"
AVAILABLE = ("MemFree", "Active(file)", "Inactive(file)")
"""Whose sum is the pages that may be dirty, but for what the kernel reserves."""

MEMORY = re.compile(r"([^:]+):\s+(\d+) kB")
BANDWIDTH = re.compile(r"BdiWriteBandwidth:\s+(\d+) kBps")
DISK = re.compile(r"\d+:\d+")
KIB_A_PAGE = 4
SECTOR = 512
"""Bytes, in which the size of a block device is told."""



NO_DISKS = ("zram", "loop", "ram")
"""How the names of block devices begin that are none: they keep their pages in memory, or in files of another disk."""


@dataclass(frozen=True)
class Disk:
    """A disk: its number, least and greatest share in percent, its average bandwidth in pages a second where that is told, the name of its
    block device where it has one, and its size in bytes where that is told."""

    name: str
    least: int
    greatest: int
    rate: int | None
    block: str = ""
    size: int | None = None

    @property
    def is_disk(self) -> bool:
        """Whether files may be written to it: it is none of memory, none over a file, and not empty."""
        return not self.block.startswith(NO_DISKS) and self.size != 0


@dataclass
class Seen:
    """What a machine told."""

    cpus: int
    available: int
    sysctls: dict[str, int]
    expire: int
    disks: list[Disk] = field(default_factory=list)
    root: str = ""
    """The number of the disk that has `/`, or nothing where that isn't told."""


def machine(root: str = "/") -> Seen:
    """The machine whose /proc and /sys are below a root."""
    cpus = len(re.findall(r"^cpu\d+ ", content(root, "proc/stat"), re.MULTILINE))
    sysctls = {name: number(root, f"proc/sys/vm/{name}") for name in SYSCTLS}
    return Seen(cpus, available(root), sysctls, number(root, f"proc/sys/vm/{EXPIRE}"), disks(root), disk_of_root(root))


def available(root: str) -> int:
    """Pages that are free or of files."""
    path = "proc/meminfo"
    found = {}
    for line in content(root, path).splitlines():
        if match := MEMORY.fullmatch(line):
            found[match[1]] = int(match[2])
    for name in AVAILABLE:
        if name not in found:
            raise Fault(os.path.join(root, path), 0, Cause.MISSING, name)
    return sum(found[name] for name in AVAILABLE) // KIB_A_PAGE


def disks(root: str) -> list[Disk]:
    """The disks that have a number."""
    where = os.path.join(root, "sys/class/bdi")
    try:
        names = sorted(name for name in os.listdir(where) if DISK.fullmatch(name))
    except FileNotFoundError:
        return []
    except OSError as error:
        raise ReadFault(f"{where}: {error.strerror}") from error
    return [Disk(name, number(root, f"sys/class/bdi/{name}/min_ratio"), number(root, f"sys/class/bdi/{name}/max_ratio"), rate(root, name),
                 block(root, name), size(root, name)) for name in names]


def block(root: str, disk: str) -> str:
    """The name of the block device of a number, or nothing."""
    path = os.path.join(root, f"sys/dev/block/{disk}")
    return os.path.basename(os.path.realpath(path)) if os.path.exists(path) else ""


def size(root: str, disk: str) -> int | None:
    """The bytes of a block device, where that is told."""
    try:
        return SECTOR * number(root, f"sys/dev/block/{disk}/size")
    except (NotThere, ReadFault):
        return None


def disk_of_root(root: str) -> str:
    """The number of the disk that has `/`: of a partition, that of its whole disk; nothing where it isn't told."""
    try:
        lines = content(root, "proc/self/mountinfo").splitlines()
    except (NotThere, ReadFault):
        return ""
    mounted = [words for words in map(str.split, lines) if words[4:5] == ["/"] and "-" in words[:-2]]
    if not mounted:
        return ""
    words = mounted[-1]
    found = words[2]
    if not os.path.exists(os.path.join(root, f"sys/dev/block/{found}")):
        source = os.path.basename(words[words.index("-") + 2])
        try:
            found = content(root, f"sys/class/block/{source}/dev").strip()
        except (NotThere, ReadFault):
            return found
    return whole_disk(root, found)


def whole_disk(root: str, disk: str) -> str:
    """The disk that a partition is of, or the disk itself."""
    at = os.path.realpath(os.path.join(root, f"sys/dev/block/{disk}"))
    if not os.path.exists(os.path.join(at, "partition")):
        return disk
    try:
        return content("/", os.path.join(os.path.dirname(at), "dev")).strip()
    except (NotThere, ReadFault):
        return disk


def rate(root: str, disk: str) -> int | None:
    """The average bandwidth of a disk, where debugfs is there."""
    try:
        match = BANDWIDTH.search(content(root, f"sys/kernel/debug/bdi/{disk}/stats"))
    except (NotThere, ReadFault):
        return None
    return int(match[1]) // KIB_A_PAGE if match else None


def number(root: str, path: str) -> int:
    """A file of one number."""
    text = content(root, path).strip()
    if not text.isdecimal():
        raise Fault(os.path.join(root, path), 1, Cause.BAD_LINE, f"'{text}' where a number is wanted")
    return int(text)


def content(root: str, path: str) -> str:
    """A file."""
    whole = os.path.join(root, path)
    try:
        with open(whole, encoding="latin-1") as file:
            return file.read()
    except FileNotFoundError:
        raise NotThere(f"{whole} isn't there") from None
    except OSError as error:
        raise ReadFault(f"{whole}: {error.strerror}") from error
