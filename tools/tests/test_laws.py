"""The formulas of tools/laws give the numbers that docs/LAWS.md works out."""
from __future__ import annotations

import unittest

from laws.age import due_after
from laws.allowance import page_done
from laws.clock import PROFILE, Clock
from laws.counters import context_batch, domain_batch, error_of, fixed_bound
from laws.decision import DomainRead, Kind, Rule, Task, Verdict, decide
from laws.estimate import Estimate
from laws.limits import (
    SETTINGS, Limits, cgroup_avail, chunk_of, context_thresh, flight_of, follow, freerun_of, ratelimit_pages, setpoint_of, thresholds)
from laws.position import Low, Slope, polynom, position
from laws.proportions import Half, fraction, may_add
from laws.strict import Held, decide_for, is_over_own, strict_bound, strict_decide, strict_position

WORKED = Limits(19995, 9985, 19995)


class OfADomain(unittest.TestCase):
    def test_thresholds_and_what_follows(self) -> None:
        self.assertEqual(thresholds(SETTINGS, 100000), (19995, 9985))
        self.assertEqual((freerun_of(WORKED), setpoint_of(WORKED)), (14990, 17492))

    def test_a_background_threshold_is_below_the_threshold(self) -> None:
        for avail, wanted in ((21, (4, 3)), (22, (4, 2))):
            self.assertEqual(thresholds({**SETTINGS, "dirty_background_ratio": 19}, avail), wanted)

    def test_a_cgroup(self) -> None:
        self.assertEqual(cgroup_avail(50000, 1000, 0, 100000, 0), 51000)

    def test_the_limit_follows(self) -> None:
        self.assertEqual(follow(19995, 10000, 12000), 19746)
        self.assertEqual(follow(10, 20, 0), 20)

    def test_a_context(self) -> None:
        self.assertEqual(context_thresh(19995, 1, 3, 0, 100, 0), 6665)

    def test_the_rest(self) -> None:
        self.assertEqual([ratelimit_pages(19995, cpus) for cpus in (1, 4, 64)], [624, 156, 16])
        self.assertEqual(chunk_of(25600, 19995), 3072)
        self.assertEqual(flight_of(2, 25600), 1)


class OfCounters(unittest.TestCase):
    def test_batches_and_error(self) -> None:
        wanted = {1: (32, 8, 8), 2: (32, 16, 32), 4: (32, 24, 96), 64: (128, 56, 3584)}
        for cpus, numbers in wanted.items():
            self.assertEqual((domain_batch(cpus), context_batch(cpus), error_of(cpus)), numbers)

    def test_the_bound(self) -> None:
        self.assertEqual([19995 + fixed_bound(*of) for of in ((1, 1, 1024, 1), (2, 2, 1024, 1), (4, 2, 32, 1))], [21067, 22171, 20379])


class OfProportions(unittest.TestCase):
    def test_ten_events_and_a_period(self) -> None:
        part, whole = Half(0), Half(1)
        self.assertFalse(whole.new_period(1))
        part.events, whole.events = 10, 11
        self.assertEqual(fraction(part, whole), (0, 10, 11))
        self.assertTrue(whole.new_period(1))
        self.assertEqual(fraction(part, whole), (1, 5, 5))
        self.assertFalse(may_add(5, 5, 50))


class OfAPosition(unittest.TestCase):
    def test_the_polynomial(self) -> None:
        self.assertEqual([polynom(17492, dirty, 19995) for dirty in (14990, 17492, 19994, 19995)], [2045, 1024, 2, 0])

    def test_the_row_of_a_context(self) -> None:
        ratios = [position(WORKED, 17492, 19995, pages, 25600).ratio
                  for pages in (0, 1250, 2500, 5000, 9997, 17492, 50000, 100000, 200000)]
        self.assertEqual(ratios, [8888, 8837, 4390, 2171, 1061, 1023, 861, 611, 256])

    def test_its_rules(self) -> None:
        self.assertEqual(position(WORKED, 17492, 19995, 0, 25600).low, Low.EIGHT)
        self.assertEqual(position(WORKED, 17492, 19995, 5000, 25600)[6:], (Slope.LINE, 1086, Low.HYPERBOLA, 2171))
        self.assertEqual(position(WORKED, 17492, 19995, 200000, 25600).slope, Slope.QUARTER)
        self.assertEqual(position(WORKED, 19995, 19995, 5000, 25600).slope, None)

    def test_at_the_opening(self) -> None:
        self.assertEqual(position(Limits(97, 93, 97), 96, 0, 96, 25600).ratio, 256)
        self.assertEqual(position(Limits(97, 93, 97), 96, 97, 96, 25600).ratio, 1023)


class OfAnEstimate(unittest.TestCase):
    def test_a_first_sample(self) -> None:
        it = Estimate()
        it.update(1001, 12800, 20000, 512, False)
        self.assertEqual((it.bandwidth, it.average, it.ratelimit, it.balanced), (22475, 25600, 25600, 16384))


class OfADecision(unittest.TestCase):
    READ = DomainRead(WORKED, 17492, 19995)

    def test_the_worked_one(self) -> None:
        it = decide([self.READ], 17492, 25600, 25600, Task(250, 250, 4999), 5000, error_of(4), 1024)
        self.assertEqual((it.kind, it.pause, it.left, it.task, it.rule), (Kind.GO, 8, 250, Task(0, 250, 5008), Rule.WANTED))
        assert it.least
        self.assertEqual((it.rate, it.period, it.think, it.least.pause, it.longest), (25575, 9, 1, 6, 88))

    def test_each_rule(self) -> None:
        at_limit = self.READ._replace(dirty=19995)
        wanted = {
            Rule.FREE: decide([self.READ._replace(dirty=100)], 100, 25600, 25600, Task(0, 32, 0), 5000, 96, 1024),
            Rule.RATE_IS_ZERO: decide([at_limit], 17492, 25600, 25600, Task(250, 250, 4999), 5000, 96, 1024),
            Rule.CUT: decide([self.READ], 17492, 25600, 25600, Task(9000, 250, 4999), 5000, 96, 1024),
            Rule.ANEW: decide([self.READ], 17492, 25600, 25600, Task(250, 250, 1), 5000, 96, 1024),
            Rule.PAID: decide([self.READ], 17492, 25600, 25600, Task(250, 250, 4900), 5000, 96, 1024),
            Rule.LONGER: decide([self.READ], 17492, 25600, 25600, Task(2, 2, 4900), 5000, 96, 1024),
            Rule.KEPT: decide([self.READ], 17492, 25600, 25600, Task(2, 3, 4900), 5000, 96, 1024),
        }
        for rule, verdict in wanted.items():
            self.assertEqual(verdict.rule, rule)
        self.assertEqual(wanted[Rule.RATE_IS_ZERO].kind, Kind.WAIT)
        self.assertEqual(wanted[Rule.LONGER].task, Task(2, 4, 4900))

    def test_few_pages_of_a_context_are_exempt(self) -> None:
        it = decide([self.READ._replace(dirty=19995)], 96, 25600, 25600, Task(250, 250, 4999), 5000, 96, 1024)
        self.assertEqual((it.kind, it.pause), (Kind.EXEMPT, 1))


class OfAStrictContext(unittest.TestCase):
    READ = DomainRead(WORKED, 17492, 1000)

    def decided(self, pages: int, dirty: int = 17492, **read: int) -> Verdict:
        """A check with so many pages of the context and of the domain."""
        reads = [self.READ._replace(dirty=dirty, **read)]
        return strict_decide(reads, pages, 25600, 25600, Task(250, 250, 4999), 5000, error_of(4), 1024)

    def test_the_worked_positions(self) -> None:
        found = [strict_position(self.READ, pages) for pages in (7, 749, 999, 1000)]
        self.assertEqual([it.ratio for it in found], [2048, 1024, 14, 0])
        self.assertEqual([it.held for it in found], [Held.FEW, Held.BY_DOMAIN, Held.BY_OWN, Held.AT_OWN])
        self.assertEqual([strict_position(self.READ._replace(dirty=18000), pages).ratio for pages in (7, 8)], [2030, 1015])
        self.assertEqual(strict_position(self.READ._replace(dirty=0), 7).ratio, 2048)
        self.assertEqual(strict_position(self.READ._replace(dirty=19995), 7), (0, Held.AT_HARD, 0, 0))
        self.assertEqual(strict_position(self.READ._replace(context_limit=8), 8).held, Held.AT_OWN)
        self.assertEqual(strict_position(DomainRead(Limits(10, 10, 10), 0, 10), 9).held, Held.NO_MIDDLE)

    def test_it_is_free_up_to_half_of_its_own_part(self) -> None:
        self.assertEqual([self.decided(pages).kind for pages in (749, 750)], [Kind.FREE, Kind.GO])
        self.assertEqual([self.decided(749, dirty).kind for dirty in (19995, 19996)], [Kind.FREE, Kind.WAIT])
        self.assertEqual(self.decided(700).task, Task(0, 16, 5000), "the root of the 300 pages up to its threshold, by a power of two")

    def test_it_waits_at_its_threshold(self) -> None:
        self.assertEqual([self.decided(pages, 100).kind for pages in (999, 1000)], [Kind.GO, Kind.WAIT])
        self.assertEqual(self.decided(96, 100, context_limit=50).kind, Kind.EXEMPT)

    def test_it_is_exceeded_by_its_own_threshold(self) -> None:
        self.assertEqual([self.decided(pages, 100).exceeded for pages in (749, 1000, 1001)], [False, False, True])

    def test_the_rule_is_that_of_the_device(self) -> None:
        task = Task(250, 250, 4999)
        kinds = [decide_for(is_strict, [self.READ._replace(dirty=14990)], 1001, 25600, 25600, task, 5000, 96, 1024).kind
                 for is_strict in (True, False)]
        self.assertEqual(kinds, [Kind.WAIT, Kind.FREE])

    def test_the_flusher_and_the_bound(self) -> None:
        self.assertEqual([is_over_own(pages, self.READ) for pages in (499, 500)], [False, True])
        self.assertFalse(is_over_own(0, DomainRead(Limits(0, 0, 0), 0, 0)))
        self.assertEqual([strict_bound(0, 1, 1, 1024), strict_bound(1000, 4, 2, 32)], [1040, 1160])


class OfAnAge(unittest.TestCase):
    def test_when_an_inode_is_due(self) -> None:
        self.assertEqual([due_after(1, 10), due_after(0, 100000), due_after(7, None)], [101, 1000000, 30007])


class OfAnAllowance(unittest.TestCase):
    def test_the_worked_ones(self) -> None:
        self.assertEqual(page_done(0, 32, False, 31, 0, 5, 624), (6, 1, 0, False))
        self.assertEqual(page_done(3, 32, False, 20, 15, 0, 16), (4, 0, 0, True))
        self.assertTrue(page_done(7, 32, True, 20, 0, 0, 624).is_due)


class OfAClock(unittest.TestCase):
    def test_constants_by_ticks_a_second(self) -> None:
        for second, wanted in ((1000, (200, 10, 1024, 128, 4096)), (250, (50, 2, 256, 32, 1024)), (100, (20, 1, 128, 16, 512))):
            it = Clock(second)
            self.assertEqual((it.longest, it.least, it.near_second, it.near_eighth, it.window), wanted)

    def test_ticks_as_they_are_printed(self) -> None:
        self.assertEqual([Clock(250).milliseconds(ticks) for ticks in (3, -1, 0)], [12, -4, 0])
        self.assertEqual([Clock(300).milliseconds(ticks) for ticks in (1, 2, -1)], [3, 6, -3])
        self.assertEqual(PROFILE.milliseconds(7), 7)


if __name__ == "__main__":
    unittest.main()
