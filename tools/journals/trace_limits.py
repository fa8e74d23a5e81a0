"""The ranges of a trace's numbers, and how many lines of each sort it may have."""
from __future__ import annotations

from .ranges import Range

PERCENT = 100
MOST_MOMENT = 10**12
MOST_BYTES = 2**48
MOST_PAGES = 2**21
MOST_MACHINE_PAGES = 2**40
MOST_RATE = 2**20

SETTINGS = {
    "dirty_ratio": Range("dirty_ratio", 0, PERCENT),
    "dirty_background_ratio": Range("dirty_background_ratio", 0, PERCENT),
    "dirty_bytes": Range("dirty_bytes", 0, MOST_BYTES),
    "dirty_background_bytes": Range("dirty_background_bytes", 0, MOST_BYTES),
}
AVAIL_TICK = Range("tick of available pages", 0, MOST_MOMENT)
AVAIL_PAGES = Range("number of available pages", 0, MOST_MACHINE_PAGES)
RATE = Range("rate of a device", 1, MOST_RATE)
LEAST_SHARE = Range("least share of a device", 0, PERCENT)
GREATEST_SHARE = Range("greatest share of a device", 0, PERCENT)
FILE_PAGES = Range("number of file pages of a cgroup", 0, MOST_MACHINE_PAGES)
HEADROOM = Range("number of pages that a cgroup may still be charged", 0, MOST_MACHINE_PAGES)
INODE_PAGES = Range("number of pages of an inode", 1, MOST_PAGES)
CHUNK = Range("number of pages with which a scan ends", 1, MOST_PAGES)
RATE_OF_ESTIMATE = Range("rate of an estimate", 1, 2**40)
PACE = Range("number of pages after which a task rests", 1, MOST_PAGES)
EXPIRE = Range("number of hundredths of a second after which an inode is due", 1, 100000)
REST = Range("rest of a task", 1, MOST_MOMENT)
ORDER_STEPS = Range("number of steps of an order", 1, MOST_MOMENT)
TICKS = Range("number of ticks of the clock", 1, MOST_MOMENT)
HALT_STEPS = Range("number of steps before a halt", 0, MOST_MOMENT)

MOST_AVAIL_LINES = 256
MOST_OF = {"device": 16, "cgroup": 8, "context": 64, "inode": 4096, "task": 256, "flusher": 64}
MOST_WRITERS = 1024
MOST_ACTIONS = 65536
MOST_ORDER_LINES = 65536
