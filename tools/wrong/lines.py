"""Wrong rules of what a further line says of a thing: the chunk of a device, and the first estimate of a context."""
from __future__ import annotations

from .rule import ESTIMATE, LIMITS, REPLAY, Rule

QUOTA = "return chunk_of(average, hard) if chunk is None else min(chunk_of(average, hard), chunk)"
FIRST = "            it.estimate = Estimate(it.first.bandwidth, it.first.average, it.first.ratelimit) if it.first else Estimate()\n"
RATES = "self.bandwidth, self.average, self.ratelimit, self.balanced = bandwidth, average, ratelimit, ratelimit\n"

OF_CHUNKS = (
    Rule("a chunk line says the least quota", LIMITS, QUOTA, QUOTA.replace("min(", "max(")),
    Rule("a chunk line says the quota, also above what the laws give", LIMITS, QUOTA, "return chunk_of(average, hard) if chunk is None else chunk"),
    Rule("no device has a chunk line", LIMITS, QUOTA, "return chunk_of(average, hard)"),
    Rule("a chunk line is one page less", LIMITS, QUOTA, QUOTA.replace(", chunk)", ", max(chunk - 1, 1))")),
    Rule("all devices have the chunk line of the first", REPLAY, "it.device.chunk)", "self.devices[0].chunk)"),
    Rule("all devices have the chunk line of the last", REPLAY, "it.device.chunk)", "self.devices[-1].chunk)"),
    Rule("a chunk line is of the context of its number", REPLAY, "it.device.chunk)",
         "(self.devices[inode.context].chunk if inode.context < len(self.devices) else None))"),
    Rule("a quota counts the pages that a scan has passed", REPLAY, "len(it.batch) < it.quota:", "it.passed < it.quota:"),
)

OF_FIRST_ESTIMATES = (
    Rule("a first estimate is of version 1", REPLAY, FIRST, FIRST + "            it.estimate.version = int(it.first is not None)\n"),
    Rule("a first estimate's moment is 0", REPLAY, FIRST, FIRST + "            it.estimate.at = int(it.first is None)\n"),
    Rule("no context has a first estimate of its own", REPLAY, FIRST, "            it.estimate = Estimate()\n"),
    Rule("all contexts have the first estimate of context 0", REPLAY, FIRST,
         "            at = self.contexts[0].first\n            it.estimate = Estimate(at.bandwidth, at.average, at.ratelimit) if at else Estimate()\n"),
    Rule("all contexts of a device have the first estimate of one", REPLAY, FIRST,
         "            at = next((other.first for other in self.contexts if other.first and other.device is it.device), None)\n"
         "            it.estimate = Estimate(at.bandwidth, at.average, at.ratelimit) if at else Estimate()\n"),
    Rule("an estimate line is of the device of its number", REPLAY, FIRST,
         "            at = next((other.first for other, device in zip(self.contexts, self.devices) if device is it.device), None)\n"
         "            it.estimate = Estimate(at.bandwidth, at.average, at.ratelimit) if at else Estimate()\n"),
    Rule("a first estimate's balanced rate is that of all", ESTIMATE, RATES, RATES.replace("ratelimit, ratelimit\n", "ratelimit, FIRST_RATE\n")),
    Rule("a first estimate's balanced rate is its bandwidth", ESTIMATE, RATES, RATES.replace("ratelimit, ratelimit\n", "ratelimit, bandwidth\n")),
    Rule("a first estimate's average is its bandwidth", ESTIMATE, RATES, RATES.replace("= bandwidth, average,", "= bandwidth, bandwidth,")),
    Rule("a first estimate's bandwidth is its average", ESTIMATE, RATES, RATES.replace("= bandwidth, average,", "= average, average,")),
    Rule("a first estimate's rate limit is its average", ESTIMATE, RATES, RATES.replace("ratelimit, ratelimit\n", "average, average\n")),
)

OF_LINES = (*OF_CHUNKS, *OF_FIRST_ESTIMATES)
