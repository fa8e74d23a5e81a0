"""The bound by its formula is the one that steps say."""
from __future__ import annotations

import unittest
from itertools import accumulate

from journals.bound import closer_bound, fixed_bound
from journals.events import Limits, Step
from journals.reader import Reader
from journals.trace_reader import read_trace
from laws import counters

from .given import EXAMPLES, events_of, examples, trace_of


class Bounds(unittest.TestCase):
    def test_of_every_example(self) -> None:
        for path, journal in examples():
            trace = read_trace(path)
            events = list(Reader(journal, trace).events())
            hard = [event.hard for event in events if isinstance(event, Limits) and event.domain == 0]
            bounds = {event.bounds[0] for event in events if isinstance(event, Step)}
            if bounds:
                self.assertEqual({greatest + fixed_bound(trace, 0) for greatest in accumulate(hard, max)}, bounds, journal)

    def test_of_a_cgroup(self) -> None:
        last = [event for event in events_of("throttled") if isinstance(event, Step)][-1]
        trace = trace_of("throttled")
        self.assertEqual((199 + fixed_bound(trace, 0), 11 + fixed_bound(trace, 1)), last.bounds)

    def test_the_closer_one(self) -> None:
        near = {"nearest-one": (33, 75), "nearest-contexts": (33, 85), "stopped": (97, 191), "empty": (19995, 20027)}
        for name, (hard, closer) in near.items():
            self.assertEqual(closer_bound(read_trace(f"{EXAMPLES}/{name}.trace"), 0, hard), closer, name)
        for domain in (0, 1):
            self.assertEqual(closer_bound(read_trace(f"{EXAMPLES}/nearest-cgroup.trace"), domain, 97), 191)

    def test_the_closer_one_of_a_low_hard_limit(self) -> None:
        self.assertEqual([counters.closer_bound(hard, 64, 2, 32, 1) for hard in (0, 1)], [8192 + 64, 8193 + 64])
        self.assertEqual([counters.closer_bound(hard, 16, 2, 32, 2) for hard in (0, 767, 768, 769)], [2624, 2624, 2624, 2625])
