"""Wrong rules of the scans of a cyclic device, which go on where the last one ended.

Where a scan begins is seen where an inode is scanned again, so that they are noticed by devices with a chunk.
"""
from __future__ import annotations

from .order import changed
from .rule import LIMITS, REPLAY, Rule

CLOSING = """\
        if it.passed < inode.pages and len(it.batch) < it.quota:
            return
        if it.device.is_cyclic:
            it.places[inode.number] = place_after(inode.pages, it.start, it.passed)
        if it.passed < inode.pages or it.noted:
"""
PLACE = "place_after(inode.pages, it.start, it.passed)"
LANDED = "        at.written += it.flown\n"

OF_SCANS = (
    Rule("every device is cyclic", REPLAY, "if it.device.is_cyclic:", "if True:"),
    Rule("every device is cyclic where one is", REPLAY, "if it.device.is_cyclic:", "if any(device.is_cyclic for device in self.devices):"),
    Rule("no device is cyclic", REPLAY, "if it.device.is_cyclic:", "if False:"),
    Rule("every device with a chunk line is cyclic", REPLAY, "if it.device.is_cyclic:", "if it.device.chunk is not None:"),
    Rule("a scan that goes on looks at its first page twice", REPLAY,
         *changed(CLOSING, ("if it.passed < inode.pages and", "if it.passed < inode.pages + (it.start > 0) and"))),
    Rule("a scan that goes on leaves its last page out", REPLAY,
         *changed(CLOSING, ("if it.passed < inode.pages and", "if it.passed < inode.pages - (it.start > 0) and"))),
    Rule("a scan that goes on is over at the inode's end", REPLAY,
         *changed(CLOSING, ("if it.passed < inode.pages and", "if it.start + it.passed < inode.pages and"))),
    Rule("a scan that goes on is over at the inode's end, with all pages passed", REPLAY,
         *changed(CLOSING, ("if it.passed < inode.pages and", "if it.start + it.passed < inode.pages and"),
                  ("if it.passed < inode.pages or", "if it.start + it.passed < inode.pages or"))),
    Rule("a scan that goes on looks from its place backwards", LIMITS, "return first + (start + passed) % pages",
         "return first + (start - passed) % pages"),
    Rule("a scan that wraps goes on at the inode's second page", LIMITS, "return first + (start + passed) % pages",
         "return first + (start + passed + (start + passed >= pages)) % pages"),
    Rule("a place is the last page that was passed", REPLAY, PLACE, "(it.start + it.passed - 1) % inode.pages"),
    Rule("a place is a page further", REPLAY, PLACE, "(it.start + it.passed + 1) % inode.pages"),
    Rule("a place counts the pages that a scan has taken", REPLAY, PLACE, "(it.start + len(it.batch)) % inode.pages"),
    Rule("a place forgets where its scan began", REPLAY, PLACE, "it.passed % inode.pages"),
    Rule("a scan that has passed all pages begins at the first the next time", REPLAY, PLACE,
         "(it.start + it.passed) % inode.pages if it.passed < inode.pages else 0"),
    Rule("a scan that has passed all pages goes on after the last that it took", REPLAY, PLACE,
         "(it.batch[-1] + 1 - inode.first if it.batch else it.start) % inode.pages"),
    Rule("a flusher has one place for all inodes", REPLAY,
         *changed(CLOSING, ("it.places[inode.number] =", "it.places = dict.fromkeys(it.places,"), ("it.start, it.passed)", "it.start, it.passed))"))),
    Rule("a place is kept for the inode that follows", REPLAY,
         *changed(CLOSING, ("it.places[inode.number]", "it.places[(inode.number + 1) % len(self.inodes)]"))),
    Rule("all flushers have one place for an inode", REPLAY,
         *changed(CLOSING, ("it.places[inode.number] =", "for other in self.flushers:\n                other.places[inode.number] ="))),
    Rule("a place moves again where the batch is written", REPLAY, LANDED,
         LANDED + "        it.places[it.inode.number] = (it.places[it.inode.number] + it.flown * it.device.is_cyclic) % it.inode.pages\n"),
    Rule("a place goes back to the first page where the batch is written", REPLAY, LANDED, LANDED + "        it.places[it.inode.number] = 0\n"),
)
