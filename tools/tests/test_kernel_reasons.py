"""Each reason of a number that isn't equal stands only where the numbers bear it: a forged number loses it."""
from __future__ import annotations

import os
import re
import unittest
from collections.abc import Callable
from unittest import mock

from kernel import averages, joining
from kernel.comparing import Comparing, Group, compared, numbers
from kernel.domains import FOLD
from kernel.estimates import MOVED
from kernel.whole import story_of, told
from kernel.numbers import Kind, Number, Verdict
from kernel.raised import Plain, is_raised
from kernel.scale import UNIT, Scale
from kernel.tracepoints import Sample, State
from laws.clock import Clock
from laws.estimate import moved, next_average

from .given import TESTS_TEXTS, WithDirectory
from .test_kernel import STRICT, THREE, TWO, numbers_of, printed
from .test_kernel import story_of as story_at

CGROUP, REALTIME = (os.path.join(TESTS_TEXTS, f"{name}.kernel.txt") for name in ("cgroup", "realtime"))


MORE = 400
"""Lines of a text after the one that is changed."""


class Forged(WithDirectory):
    """Texts of which one number was changed."""

    def changed(self, path: str, line: int, field: str, to: Callable[[int], int], *disks: str) -> dict[tuple[int, Kind], Number]:
        """The numbers of a text of which a field of a line is another one."""
        with open(path, encoding="latin-1") as file:
            lines = file.read().splitlines(keepends=True)[:line + MORE]
        lines[line - 1], many = re.subn(rf"(?<=\b{field}=)-?\d+", lambda found: str(to(int(found[0]))), lines[line - 1], count=1)
        self.assertEqual(many, 1)
        return {(it.line, it.kind): it for it in numbers(story_of(self.file("text", "".join(lines)), 250, disks))}

    def one(self, path: str, kind: Kind, verdict: Verdict, *disks: str) -> Number:
        """The first number of a kind that has a verdict."""
        return next(it for it in numbers_of(path, *disks) if it.kind is kind and it.verdict is verdict)

    def assert_loses(self, path: str, it: Number, field: str, by: int, *disks: str) -> None:
        """The number is unexplained where its field is another one."""
        found = self.changed(path, it.line, field, lambda kernel: kernel + by, *disks)[it.line, it.kind]
        self.assertEqual((found.verdict, found.kernel), (Verdict.UNEXPLAINED, it.kernel + by), (it, found))

    def test_pages_by_what_a_counter_adds_at_once(self) -> None:
        it = self.one(THREE, Kind.COUNT, Verdict.WITHIN)
        self.assertEqual(abs(it.kernel - it.laws), 64)
        for by in (-7000, 65 + FOLD, -65 - FOLD):
            self.assert_loses(THREE, it, "dirty", by)

    def test_pages_of_an_equal_one(self) -> None:
        self.assert_loses(THREE, self.one(THREE, Kind.COUNT, Verdict.EQUAL), "dirty", -7000)

    def test_a_think_by_one_tick(self) -> None:
        it = self.one(THREE, Kind.THINK, Verdict.WITHIN)
        for by in (800, -8, 12):
            self.assert_loses(THREE, it, "think", by)

    def test_a_pause_by_one_tick(self) -> None:
        it = self.one(THREE, Kind.PAUSE, Verdict.WITHIN)
        self.assert_loses(THREE, it, "pause", 8)
        equal = next(it for it in numbers_of(THREE) if it.kind is Kind.PAUSE and it.verdict is Verdict.EQUAL and it.low == it.high > 40)
        self.assert_loses(THREE, equal, "pause", -8)
        self.assert_loses(THREE, equal, "pause", 8)

    def test_an_average_by_an_update_between_two_lines(self) -> None:
        it = next(it for it in numbers_of(THREE) if it.kind is Kind.AVERAGE and it.line == 2878)
        after = next(at.after for at in story_at(THREE).estimates if at.sample.line == it.line)
        assert after
        for times in (3, 0.5, 1.1):
            found = self.changed(THREE, after.line, "awrite_bw", lambda kernel, times=times: int(kernel * times))[it.line, it.kind]
            self.assertEqual(found.verdict, Verdict.UNEXPLAINED, (times, found))

    def test_a_rate_of_four_percent_less(self) -> None:
        for number in (400, 800, 1200):
            check = next(at.check for at in story_at(THREE).checks if at.check.line > number and at.check.rate > 1000)
            found = self.changed(THREE, check.line, "task_ratelimit", lambda kernel: kernel // 4 * 96 // 100 * 4)
            self.assertEqual(found[check.line, Kind.RATE].verdict, Verdict.UNEXPLAINED)

    def test_a_setpoint_and_a_limit(self) -> None:
        check = story_at(THREE).checks[700].check
        self.assertEqual(self.changed(THREE, check.line, "setpoint", lambda it: it + 1)[check.line, Kind.SETPOINT].verdict,
                         Verdict.UNEXPLAINED)
        at = story_at(THREE).estimates[9].check
        assert at
        self.assertEqual(self.changed(THREE, at.check.line, "limit", lambda it: it + 5)[at.check.line, Kind.FOLLOWING].verdict,
                         Verdict.UNEXPLAINED)

    def test_a_limit_that_another_check_moved(self) -> None:
        sample = next(at.sample for before, at in zip(story_at(TWO).estimates, story_at(TWO).estimates[1:])
                      if at.check and at.sample.disk != before.sample.disk and at.sample.time - before.sample.time < 0.1)
        for limit, verdict in ((80000, Verdict.WITHIN), (79999, Verdict.UNEXPLAINED)):
            with open(TWO, encoding="ascii") as file:
                lines = file.read().splitlines(keepends=True)
            lines[sample.line - 2] = lines[sample.line - 2].replace("limit=73243", "limit=80000")
            lines[sample.line] = lines[sample.line].replace("limit=73243", f"limit={limit}")
            found = [it for it in numbers(story_of(self.file("text", "".join(lines)))) if it.kind is Kind.FOLLOWING and it.line == sample.line + 1]
            self.assertEqual([(it.verdict, it.reason) for it in found], [(verdict, MOVED if verdict is Verdict.WITHIN else "")])

    def test_an_allowance(self) -> None:
        it = next(it for it in numbers_of(THREE) if it.kind is Kind.ALLOWANCE and it.line > 1000)
        self.assert_loses(THREE, it, "dirtied_pause", 1)
        self.assert_loses(THREE, it, "dirtied_pause", -1)

    def test_numbers_of_an_estimate(self) -> None:
        line = story_at(THREE).estimates[20].sample.line
        for field, kind in (("task_ratelimit", Kind.SAMPLE_RATE), ("balanced_dirty_ratelimit", Kind.BALANCED),
                            ("dirty_ratelimit", Kind.RATE_LIMIT)):
            found = self.changed(THREE, line, field, lambda kernel: kernel + 4 * max(kernel // 40, 1))
            self.assertEqual(found[line, kind].verdict, Verdict.UNEXPLAINED, kind)

    def test_a_rate_of_a_strict_disk_that_isn_t_named(self) -> None:
        it = next(it for it in numbers_of(STRICT) if it.kind is Kind.RATE and it.kernel > 1000)
        self.assertEqual(it.verdict, Verdict.DIFFERENT)
        found = self.changed(STRICT, it.line, "task_ratelimit", lambda kernel: kernel // 4 * 96 // 100 * 4)
        self.assertEqual(found[it.line, Kind.RATE].verdict, Verdict.UNEXPLAINED)
        free = next(at for at in numbers_of(STRICT) if at.kind is Kind.FREE and at.line == it.line - 1)
        self.assertEqual([free.verdict, found[it.line - 1, Kind.FREE].verdict], [Verdict.DIFFERENT, Verdict.UNEXPLAINED])

    def test_an_estimate_of_a_strict_disk(self) -> None:
        it = self.one(STRICT, Kind.SAMPLE_RATE, Verdict.DIFFERENT, "7:0")
        found = self.changed(STRICT, it.line, "task_ratelimit", lambda kernel: kernel + 40, "7:0")
        self.assertEqual(found[it.line, Kind.SAMPLE_RATE].verdict, Verdict.UNEXPLAINED)

    def test_numbers_by_a_cgroup_s_own_domain(self) -> None:
        for field, kind, to in (("task_ratelimit", Kind.RATE, lambda it: it * 2), ("setpoint", Kind.SETPOINT, lambda it: it - 7000),
                                ("dirty", Kind.COUNT, lambda it: it + 90000)):
            checks = [it.line for it in numbers_of(CGROUP) if it.kind is Kind.COUNT and it.verdict is Verdict.NOT_TOLD]
            line = next(it.line for it in numbers_of(CGROUP) if it.kind is Kind.RATE and it.kernel > 1000 and it.line in checks[30:])
            found = self.changed(CGROUP, line, field, to)
            self.assertEqual(found[line, kind].verdict, Verdict.UNEXPLAINED, kind)

    def test_one_number_of_a_cgroup_s_check_alone(self) -> None:
        line = [at.check.line for at in story_at(CGROUP).checks if at.check.is_of_cgroup and 1000 < at.check.rate < at.check.ratelimit][-1]
        for field, kind in (("setpoint", Kind.SETPOINT), ("dirty", Kind.COUNT)):
            found = self.changed(CGROUP, line, field, lambda kernel: kernel - 700)
            self.assertEqual(found[line, kind].verdict, Verdict.UNEXPLAINED, kind)

    def test_a_task_rate_by_a_cgroup_s_own_domain(self) -> None:
        pairs = [at for at in story_at(CGROUP).estimates if at.first and at.check]
        self.assertGreater(len(pairs), 5)
        line = pairs[3].sample.line
        self.assertEqual(next(it for it in numbers_of(CGROUP) if (it.line, it.kind) == (line, Kind.SAMPLE_RATE)).verdict, Verdict.EQUAL)
        found = self.changed(CGROUP, line, "task_ratelimit", lambda kernel: kernel + 4 * (kernel // 40 + 9))
        self.assertEqual(found[line, Kind.SAMPLE_RATE].verdict, Verdict.UNEXPLAINED)

    def test_the_status_says_so(self) -> None:
        line = story_at(TWO).checks[100].check.line
        self.changed(TWO, line, "period", lambda kernel: kernel + 4)
        path = os.path.join(self.directory, "text")
        self.assertEqual([printed("kernel", "compare", *words, path)[0] for words in ((), ("--allow-unexplained",))], [7, 0])
        self.assertIn(f"unexplained: period, line {line}: ", printed("kernel", "compare", path)[1])
        self.assertEqual(printed("kernel", "compare", TWO)[0], 0)


class Groups(unittest.TestCase):
    def test_a_cgroup_s_own_domain_is_counted_apart(self) -> None:
        found = compared(story_at(CGROUP))
        own, plain = found.tallies[Group.CGROUP], found.tallies[Group.PLAIN]
        self.assertEqual((own.checks, own.of(Kind.RATE), own.of(Kind.COUNT)), (64, [0, 64, 0, 0, 0, 0], [0, 0, 0, 64, 0, 0]))
        self.assertEqual((plain.checks, plain.of(Kind.RATE)[0], found.unexplained()), (31, 30, 0))

    def test_real_time_tasks_are_counted_apart(self) -> None:
        found = compared(story_at(REALTIME))
        self.assertEqual((found.raised, found.tallies[Group.RAISED].checks, found.tallies[Group.PLAIN].checks), ({"fifo-480"}, 50, 35))
        self.assertEqual(found.tallies[Group.RAISED].of(Kind.RATE), [50, 0, 0, 0, 0, 0])
        self.assertIn("checks of real-time tasks, whose thresholds are raised: 50\n", printed("kernel", "compare", REALTIME)[1])

    def test_as_it_is_read_and_from_memory(self) -> None:
        for path in (THREE, TWO, CGROUP, REALTIME):
            streamed = told(path, None, (), Comparing)
            for group, tally in compared(story_at(path)).tallies.items():
                self.assertEqual([tally.of(kind) for kind in Kind], [streamed.tallies[group].of(kind) for kind in Kind], (path, group))

    def test_where_no_estimate_comes_nothing_waits_for_long(self) -> None:
        with mock.patch.object(joining, "MOST_WAITING", 10):
            found = told(THREE, None, (), Comparing)
            self.assertEqual((found.checks, found.tallies[Group.PLAIN].of(Kind.COUNT)[:2]), (1981, [1970, 11]))
            joiner = joining.Joiner(Comparing(story_at(THREE).text))
            joiner.take(line for line in story_at(THREE).text.lines if not isinstance(line, Sample))
            self.assertEqual((len(joiner.waiting), sum(map(len, joiner.open.values()))), (10, 10))

    def test_which_thresholds_are_raised(self) -> None:
        def state(thresh: int, background: int) -> State:
            return State(1, "a-1", 0, 1.0, 0, 0, background, thresh, 25600, 0, 0)

        plain, raised = state(25600, 12800), state(32800, 16800)
        self.assertEqual([is_raised(raised, plain), is_raised(plain, raised), is_raised(state(32800, 12800), plain)], [True, False, False])
        seen = Plain()
        self.assertEqual([seen.is_raised(it) for it in (raised, plain, raised, plain)], [False, False, True, False])

    def test_how_many_times_its_freerun_a_threshold_is(self) -> None:
        state = State(1, "a-1", 0, 1.0, 0, 0, 25600, 51200, 51200, 0, 0)
        scale = Scale()
        low, high = scale.open(state)
        self.assertTrue(low < UNIT * 4 // 3 < high)
        scale.take(87400, 87500, state)
        self.assertTrue(low < scale.open(state)[0] < 87400 < scale.open(state)[1] < high)


class Averages(unittest.TestCase):
    def test_the_two_that_an_update_may_leave(self) -> None:
        self.assertEqual([moved(1000, 200), moved(200, 1000), moved(3, 1)], [900, 300, 3])
        self.assertEqual([next_average(1000, 200, new) for new in (200, 201)], [900, 1000])

    def test_how_far_updates_reach(self) -> None:
        sample = story_at(THREE).estimates[-1].sample
        near, far = (averages.reach(sample, seconds, Clock(250)) for seconds in (0.05, 1.0))
        self.assertTrue(far[0] <= near[0] <= near[-1] <= far[-1])
        self.assertEqual(set(near), set(range(*sorted((sample.average, moved(sample.average, sample.bandwidth))))) | {near[-1]})


if __name__ == "__main__":
    unittest.main()
