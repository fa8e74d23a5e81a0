"""The moment of each step, and which step is the last of a check."""
from __future__ import annotations

import unittest

from journals.check_steps import CheckSteps
from journals.entry_moments import Plan
from journals.events import Check, Decision, Step, StepKind
from journals.moments import Moments
from journals.reader import Reader
from journals.trace import RestAction, WriteAction
from journals.trace_reader import read_trace

from .given import EXAMPLES, events_of, trace_of


def run_of(kinds: str, steps: CheckSteps) -> list[tuple[int, int] | None]:
    """What ends with each of a CPU's steps: F, M and L load limits, C a count, D dirties."""
    names = {"F": StepKind.FIRST, "M": StepKind.MIDDLE, "L": StepKind.LIMITS, "C": StepKind.COUNT, "D": StepKind.DIRTY}
    found = [steps.step(names[kind]) for kind in kinds]
    return [(each.domains, each.now) if each else None for each in found]


class StepsOfChecks(unittest.TestCase):
    def check(self, now: int) -> Check:
        """A check at a moment."""
        return Check(0, 0, now, 0, Decision.GO, 3, 8, 0, 8, now + 3)

    def test_a_look_without_estimates_and_then_a_check(self) -> None:
        steps = CheckSteps(1)
        steps.check(self.check(5), 1)
        self.assertEqual(run_of("FMLCFMLCC", steps), [None] * 8 + [(1, 5)])

    def test_looks_checks_and_estimates_among_two_domains(self) -> None:
        steps = CheckSteps(2)
        steps.page()
        steps.check(self.check(5), 1)
        steps.estimate(6, 0)
        steps.estimate(7, 1)
        steps.check(self.check(8), 2)
        steps.check(self.check(9), 1)
        self.assertEqual(run_of("DFMLCC", steps)[5], (1, 5))
        self.assertEqual(run_of("FMLCFMLCCC", steps)[8:], [(0, 6), (0, 7)])
        self.assertEqual(run_of("FMLCFMLCFMLCFMLCC", steps), [None] * 16 + [(2, 8)], "a look that makes no estimate comes first")
        self.assertFalse(steps.is_through)
        self.assertEqual(run_of("FMLCC", steps)[4], (1, 9))
        self.assertTrue(steps.is_through)

    def test_no_check_and_no_estimate_ends_before_the_writes_that_it_follows(self) -> None:
        steps = CheckSteps(1)
        steps.page()
        steps.check(self.check(5), 1)
        self.assertEqual(run_of("FMLCCDFMLCC", steps), [None] * 10 + [(1, 5)])

    def test_looks_of_a_strict_device_with_two_contexts(self) -> None:
        steps = CheckSteps(1)
        steps.estimate(6, 0, 2)
        steps.estimate(6, 1, 2)
        steps.page()
        steps.check(self.check(8), 1)
        self.assertEqual(run_of("FMLCCC", steps), [None] * 6, "a look without estimates")
        self.assertEqual(run_of("FMLCCCCC", steps), [None] * 6 + [(0, 6), (0, 6)])
        self.assertEqual(run_of("FMLCCCDFMLCC", steps), [None] * 11 + [(1, 8)])


class PlansOfTasks(unittest.TestCase):
    def test_rests_in_a_row(self) -> None:
        trace = trace_of("throttled")
        trace.actions[0] = [RestAction(4), WriteAction(0, 0, 2), RestAction(5), RestAction(7), WriteAction(0, 2, 1), RestAction(9)]
        plan = Plan(trace, 0)
        self.assertEqual((plan.rest, plan.write(), plan.write(), plan.write()), (4, 0, 12, 9))


class MomentsOfSteps(unittest.TestCase):
    def setUp(self) -> None:
        self.moments = Moments(trace_of("throttled"))
        self.of_step: dict[int, int] = {}
        self.checks: dict[int, tuple[int, int]] = {}
        self.estimates: list[int] = []
        for event in events_of("throttled"):
            self.moments.take(event)
            if isinstance(event, Step):
                self.of_step[event.number] = self.moments.step(event)
                found = self.moments.found
                if found and found.is_check:
                    self.checks[event.number] = found.task, found.now
                elif found:
                    self.estimates.append(event.number)

    def test_a_write_comes_after_the_pause_of_its_task(self) -> None:
        self.assertEqual([self.of_step[step] for step in (1, 5, 24, 35)], [1, 1, 1, 1])
        self.assertEqual(self.of_step[36], 8)

    def test_a_write_comes_after_the_rest_of_its_task(self) -> None:
        self.assertEqual(self.of_step[87], 231)

    def test_limits_are_published_at_their_moment(self) -> None:
        self.assertEqual([self.of_step[step] for step in range(77, 87)], [201] * 10)

    def test_pages_are_completed_when_their_flight_has_ended(self) -> None:
        self.assertEqual([self.of_step[step] for step in (98, 99, 105, 114, 115, 122)], [231, 234, 234, 234, 236, 236])

    def test_a_check_is_logged_with_its_last_count(self) -> None:
        self.assertEqual(self.checks, {14: (0, 1), 23: (1, 1), 49: (1, 8), 58: (1, 13)})

    def test_a_flusher_that_looks_at_all_domains_makes_no_check(self) -> None:
        self.assertEqual(self.estimates, [75, 76])

    def test_an_example_whose_disk_is_slow(self) -> None:
        trace = read_trace(f"{EXAMPLES}/two-disks.trace")
        moments = Moments(trace)
        completed = []
        for event in Reader(f"{EXAMPLES}/two-disks.journal", trace).events():
            moments.take(event)
            if isinstance(event, Step):
                moment = moments.step(event)
                if event.kind is StepKind.COMPLETE:
                    completed.append(moment)
        self.assertEqual(completed, sorted(completed))
        self.assertEqual((completed[0], completed[-1]), (2, 430))
