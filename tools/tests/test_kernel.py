"""A running kernel's tracepoints: how they are read, joined and compared with the laws."""
from __future__ import annotations

import contextlib
import io
import os
import unittest
from functools import cache

from kernel import strict
from kernel import whole
from kernel.averages import of_rate
from kernel.comparing import Tally, numbers, tally_of
from kernel.heads import Heads
from kernel.whole import Story
from kernel.numbers import Kind, Number, Verdict
from kernel.reads import limits_of, reads_of
from kernel.searching import between, grid, where
from kernel.tracepoints import Bad, Balance, Line, State
from kernel.tracepoints import read_line as read_any_line
from laws.strict import Held, strict_position
from program.errors import Fault
from program.main import main

from .given import EXAMPLES, WithDirectory

THREE, TWO, STRICT = (os.path.join(EXAMPLES, "kernel", f"{name}.txt") for name in ("three-writers", "two-disks", "strict-disk"))

STATE = "dirty=43964 writeback=0 bg_thresh=25600 thresh=51200 limit=51200 dirtied=6238390 written=5705263"
CHECK = ("bdi 7:0: limit=51200 setpoint=44800 dirty=43964 wb_setpoint=44799 wb_dirty=16832 dirty_ratelimit=61336 "
         "task_ratelimit=113324 dirtied=33 dirtied_pause=32 paused=0 pause=0 period=0 think=0 cgroup_ino=1")


def line_of(event: str, fields: str, head: str = "        writer-1  [000] .....  1021.718208") -> str:
    """A line as trace_pipe prints it, unless another head is given."""
    return f"{head}: {event}: {fields}"


def read_line(number: int, text: str) -> Line | None:
    """What a line tells of which none went before."""
    return read_any_line(number, text + "\n", Heads())


@cache
def story_of(path: str, *disks: str) -> Story:
    """The story of a text, of which these disks are strict: it is read once."""
    return whole.story_of(path, None, disks)


def counts(tally: Tally, kind: Kind) -> list[int]:
    """Equal, within rounding, between two averages, not told, different, unexplained: without the zeros at the end."""
    found = tally.of(kind)
    while found and not found[-1]:
        found.pop()
    return found


@cache
def numbers_of(path: str, *disks: str) -> list[Number]:
    """Its numbers."""
    return list(numbers(story_of(path, *disks)))


def printed(*words: str) -> tuple[int, str, str]:
    """Status, output and standard error of the program."""
    out, err = io.StringIO(), io.StringIO()
    with contextlib.redirect_stdout(out), contextlib.redirect_stderr(err):
        try:
            status = main(list(words))
        except SystemExit as end:
            status = int(end.code or 0)
    return status, out.getvalue(), err.getvalue()


class Lines(unittest.TestCase):
    def test_as_trace_pipe_prints(self) -> None:
        read = read_line(4, line_of("balance_dirty_pages", CHECK))
        assert isinstance(read, Balance)
        self.assertEqual((read.line, read.task, read.cpu, read.time, read.disk), (4, "writer-1", 0, 1021.718208, "7:0"))
        self.assertEqual((read.rate, read.ratelimit, read.context_dirty), (113324 // 4, 61336 // 4, 16832))

    def test_as_trace_cmd_reports(self) -> None:
        for head in ("              dd-4711  [002]  1021.718208", "   kworker/u8:1-flush-71 ( 12) [002] d..2.  1021.718208"):
            read = read_line(1, line_of("writeback:global_dirty_state", STATE, head))
            assert isinstance(read, State)
            self.assertEqual((read.count, read.thresh, read.cpu), (43964, 51200, 2))
            self.assertEqual(read.task, head.split(" (")[0].split("  [")[0].strip())

    def test_old_names_and_unknown_fields(self) -> None:
        old = CHECK.replace("wb_setpoint", "bdi_setpoint").replace("wb_dirty", "bdi_dirty") + " new_field=7"
        self.assertEqual(read_line(1, line_of("balance_dirty_pages", old)), read_line(1, line_of("balance_dirty_pages", CHECK)))

    def test_a_cgroup_is_a_disk_of_its_own(self) -> None:
        read = read_line(1, line_of("balance_dirty_pages", CHECK.replace("cgroup_ino=1", "cgroup_ino=77")))
        assert isinstance(read, Balance)
        self.assertEqual((read.disk, read.device), ("7:0 of cgroup 77", "7:0"))

    def test_other_lines_are_passed_over(self) -> None:
        for other in ("# tracer: nop", "cpus=4", "", line_of("writeback_start", "bdi 7:0: sb_dev 0:0"), "CPU:3 [LOST 12 EVENTS]"):
            self.assertIsNone(read_line(1, other))

    def test_a_field_that_is_missing(self) -> None:
        with self.assertRaisesRegex(Bad, "balance_dirty_pages without period"):
            read_line(1, line_of("balance_dirty_pages", CHECK.replace("period=0 ", "")))
        with self.assertRaisesRegex(Bad, "without bdi"):
            read_line(1, line_of("balance_dirty_pages", CHECK.replace("bdi 7:0: ", "")))


class Joins(unittest.TestCase):
    def test_checks_and_what_is_around_them(self) -> None:
        story = story_of(THREE)
        first, second = story.checks[:2]
        self.assertTrue(first.is_own)
        self.assertFalse(second.is_own)
        self.assertEqual((first.before, first.after), (second.before, second.after))
        assert first.before and first.after
        self.assertEqual(of_rate(first), [first.before.average])
        self.assertEqual(of_rate(second)[:2], [first.after.average, first.before.average])
        self.assertIs(second.previous, first)

    def test_a_free_check_has_no_line(self) -> None:
        story = story_of(TWO)
        self.assertGreater(len(story.frees), 300)
        self.assertTrue(any(joined.free for joined in story.checks))


class Comparisons(unittest.TestCase):
    def test_three_writers_to_the_last_digit(self) -> None:
        tally = tally_of(story_of(THREE))
        wanted = {Kind.FREE: 2130, Kind.SETPOINT: 1981, Kind.FOLLOWING: 57, Kind.RATE: 1981, Kind.PERIOD: 1981, Kind.ALLOWANCE: 1978,
                  Kind.SAMPLE_RATE: 56, Kind.BALANCED: 57, Kind.RATE_LIMIT: 56}
        for kind, equal in wanted.items():
            self.assertEqual(counts(tally, kind), [equal], kind)
        self.assertEqual([counts(tally, kind) for kind in (Kind.COUNT, Kind.THINK, Kind.PAUSE, Kind.AVERAGE)],
                         [[1970, 11], [1945, 3], [1980, 1], [54, 0, 2]])

    def test_rates_by_the_average_that_an_update_made(self) -> None:
        moved = [it for it in story_of(THREE).checks if not it.is_own and it.before and it.after is None]
        self.assertEqual(len(moved), 14)
        found = {it.line: it for it in numbers_of(THREE) if it.kind is Kind.RATE}
        self.assertEqual({found[it.check.line].verdict for it in moved}, {Verdict.EQUAL})

    def test_a_second_update_is_solved_for(self) -> None:
        odd = [it for it in numbers_of(THREE) if it.kind is Kind.AVERAGE and it.verdict is not Verdict.EQUAL]
        self.assertEqual([(it.line, it.kernel, it.verdict) for it in odd], [(3, 1, Verdict.BETWEEN), (2878, 8276, Verdict.BETWEEN)])
        self.assertIn("an update without a line gave it, the last from an average of", odd[1].reason)

    def test_a_strict_disk_shows(self) -> None:
        tally = tally_of(story_of(STRICT))
        self.assertEqual(counts(tally, Kind.RATE), [0, 0, 0, 0, 160])
        self.assertEqual(counts(tally, Kind.FREE)[4], len(story_of(STRICT).checks))
        self.assertEqual({it.reason for it in numbers_of(STRICT) if it.kind is Kind.RATE},
                         {"the law of strict disks gives it: --strict names the disk"})
        self.assertFalse({Kind.OWN_SAMPLE_RATE, Kind.OWN_RATE_LIMIT} & set(tally.kinds()))

    def test_where_a_formula_gives_a_number(self) -> None:
        self.assertEqual(where(7, lambda at: at // 10, 0, 1000), range(70, 80))
        self.assertEqual(where(7, lambda at: 100 - at, 0, 1000), range(93, 94))
        self.assertFalse(where(7, lambda at: 2 * at, 0, 1000))
        self.assertEqual((between([3]), between(range(3, 9))), ("3", "3 to 8"))

    def test_a_grid_has_both_ends_and_powers_of_two(self) -> None:
        self.assertEqual(grid(range(5, 41), 16), [5, 8, 16, 32, 40])
        self.assertEqual(grid(range(0), 16), [])


class StrictDisks(WithDirectory):
    def strict_numbers(self, *lines: str) -> list[Number]:
        """The numbers of a text of such lines, whose disk is strict."""
        return list(numbers(whole.story_of(self.file("text", "".join(f"{line}\n" for line in lines)), 250, ["7:0"])))

    def test_to_the_last_digit(self) -> None:
        tally = tally_of(story_of(STRICT, "7:0"))
        wanted = {Kind.FREE: 160, Kind.SETPOINT: 160, Kind.FOLLOWING: 15, Kind.RATE: 160, Kind.PERIOD: 160, Kind.BALANCED: 15,
                  Kind.OWN_SAMPLE_RATE: 14, Kind.OWN_RATE_LIMIT: 14}
        for kind, equal in wanted.items():
            self.assertEqual(counts(tally, kind), [equal], kind)

    def test_by_its_own_pages(self) -> None:
        story = story_of(STRICT, "7:0")
        held = [strict_position(reads_of(it)[-1], it.check.context_dirty).held for it in story.checks]
        self.assertEqual((held.count(Held.BY_OWN), held.count(Held.AT_OWN)), (139, 21))
        self.assertEqual([not it.check.rate for it in story.checks], [rule is Held.AT_OWN for rule in held])

    def test_by_a_threshold_of_a_tenth(self) -> None:
        def equal(thresh: int) -> int:
            reads = ((it.check, reads_of(it)[-1]._replace(context_limit=thresh)) for it in story_of(STRICT, "7:0").checks)
            return sum(check.rate == check.ratelimit * strict_position(read, check.context_dirty).ratio >> 10 for check, read in reads)

        self.assertEqual(equal(5120), 160)
        self.assertLess(equal(5119), 120)

    def test_no_domain_is_above_its_hard_limit(self) -> None:
        self.assertTrue(all(it.check.dirty <= limits_of(it).hard for it in story_of(STRICT).checks))

    def test_estimates_are_those_of_the_domain(self) -> None:
        tally = tally_of(story_of(STRICT, "7:0"))
        self.assertEqual((counts(tally, Kind.SAMPLE_RATE), counts(tally, Kind.RATE_LIMIT)), ([0, 0, 0, 0, 14], [6, 0, 0, 0, 8]))
        odd = [it for it in numbers_of(STRICT, "7:0") if it.kind in (Kind.SAMPLE_RATE, Kind.RATE_LIMIT)
               and it.verdict is not Verdict.EQUAL]
        self.assertEqual({it.reason for it in odd}, {strict.ESTIMATE})

    def test_the_allowance_after_a_free_check(self) -> None:
        after = {it.check.line for it in story_of(STRICT).checks if it.free}
        found, other = ([(it.kernel, it.verdict) for it in numbers_of(STRICT, *disks) if it.kind is Kind.ALLOWANCE and it.line in after]
                        for disks in (["7:0"], []))
        self.assertEqual(found, [(32, Verdict.EQUAL)] * 5)
        self.assertEqual(other, [(32, Verdict.DIFFERENT)] * 5)

    def test_a_free_check_doesn_t_tell_the_pages_of_its_disk(self) -> None:
        story = story_of(STRICT, "7:0")
        self.assertEqual([it.is_strict for it in story.frees], [True] * 113)
        free = {it.state.line for it in story.frees}
        self.assertFalse([it for it in numbers_of(STRICT, "7:0") if it.line in free])

    def test_the_disk_of_a_free_check(self) -> None:
        state, *checks = line_of("global_dirty_state", STATE), *(line_of("balance_dirty_pages", CHECK.replace("7:0", disk))
                                                                 for disk in ("7:0", "7:1"))
        path = self.file("text", "\n".join([state, state, checks[1], state, state, checks[0], state, state, ""]))
        for disks, told in ((["7:0"], [False, True, True]), (["7:1"], [True, False, False])):
            self.assertEqual([it.is_strict for it in whole.story_of(path, None, disks).frees], told)

    def test_a_free_check_above_the_hard_limit(self) -> None:
        above = STATE.replace("dirty=43964", "dirty=51201")
        lines = [line_of("global_dirty_state", state) for state in (above, STATE, STATE)]
        found = self.strict_numbers(*lines, line_of("balance_dirty_pages", CHECK))
        self.assertEqual([(it.line, it.kernel, it.laws, it.reason) for it in found if it.kind is Kind.FREE and it.kernel],
                         [(1, 1, 0, strict.ABOVE_HARD)])

    def test_a_check_that_the_law_lets_through(self) -> None:
        free, held = (CHECK.replace("wb_setpoint=44799 wb_dirty=16832", f"wb_setpoint=4479 wb_dirty={pages}") for pages in (3839, 3841))
        for check, laws in ((free, 1), (held, 0)):
            found = self.strict_numbers(line_of("global_dirty_state", STATE), line_of("balance_dirty_pages", check))
            self.assertEqual([(it.kernel, it.laws) for it in found if it.kind is Kind.FREE], [(0, laws)])

    def test_whether_it_is_below_its_own_setpoint(self) -> None:
        state = line_of("global_dirty_state", STATE)
        for pages, told in ((3838, [True, True]), (3839, [False, True]), (3840, [False, False])):
            check = CHECK.replace("wb_setpoint=44799 wb_dirty=16832", f"wb_setpoint=4479 wb_dirty={pages}")
            path = self.file("text", "\n".join([state, line_of("balance_dirty_pages", check), ""]))
            self.assertEqual(strict.is_below_own(whole.story_of(path, None, ["7:0"]).checks[0]), told)

    def test_which_threshold_would_give_a_rate(self) -> None:
        state = line_of("global_dirty_state", STATE)
        check = CHECK.replace("wb_setpoint=44799 wb_dirty=16832", "wb_setpoint=4479 wb_dirty=4608")
        for rate, reason in ((41568, "it would take a context threshold of 5000 to 5001 pages, its setpoint tells 5119 to 5120"),
                             (400000, "no context threshold gives it")):
            changed = check.replace("task_ratelimit=113324", f"task_ratelimit={rate}")
            found = self.strict_numbers(state, line_of("balance_dirty_pages", changed))
            self.assertEqual([it.reason for it in found if it.kind is Kind.RATE], [reason])

    def test_another_disk_of_the_text_is_none(self) -> None:
        def own(disks: tuple[str, ...], disk: str) -> list[Number]:
            lines = {it.check.line for it in story_of(TWO, *disks).checks if it.check.disk == disk}
            return [it for it in numbers_of(TWO, *disks) if it.line in lines]

        self.assertEqual(own(("7:1",), "7:0"), own((), "7:0"))
        self.assertNotEqual(own(("7:1",), "7:1"), own((), "7:1"))

    def test_in_all_cgroups(self) -> None:
        check = CHECK.replace("cgroup_ino=1", "cgroup_ino=77")
        path = self.file("text", "\n".join([line_of("global_dirty_state", STATE), line_of("balance_dirty_pages", check), ""]))
        self.assertEqual([[it.is_strict for it in whole.story_of(path, None, disks).checks] for disks in ([], ["7:0"])], [[False], [True]])


class Words(WithDirectory):
    def test_compare(self) -> None:
        status, out, err = printed("kernel", "compare", TWO)
        self.assertEqual((status, err), (0, ""))
        self.assertRegex(out, r"task rate limit +330 +0 +0 +0 +0 +100.0")

    def test_the_list_has_both_numbers(self) -> None:
        _, out, _ = printed("kernel", "compare", "--list", "--hz", "250", TWO)
        self.assertRegex(out, r"\n +\d+  writer-1 +task rate limit +(\d+) +\1  pages/s equal\n")
        _, only, _ = printed("kernel", "compare", "--different", TWO)
        self.assertNotRegex(only, r"pages/s equal\n")

    def test_compare_a_strict_disk(self) -> None:
        status, out, err = printed("kernel", "compare", "--strict", "7:0", STRICT)
        self.assertEqual((status, err), (0, ""))
        self.assertIn("disks 7:0, of which 7:0 strict; 250 ticks a second\n", out)
        self.assertRegex(out, r"\ntask rate limit +160 +0 +0 +0 +0 +100.0\n")
        self.assertRegex(out, r"\ntask rate of an estimate +0 +0 +0 +14 +0 +0.0\ntask rate, own ratio +14 +0 +0 +0 +0 +100.0\n")
        self.assertRegex(out, r"\nrate limit +6 +0 +0 +8 +0 +42.9\nrate limit, own setpoint +14 +0 +0 +0 +0 +100.0\n")

    def test_a_strict_disk_that_is_not_there(self) -> None:
        self.assertEqual(printed("kernel", "compare", "--strict", "7:1", "--strict", "8:0", TWO),
                         (1, "", "wb: --strict 8:0: no check is of that disk, there are 7:0, 7:1\n"))

    def test_a_text_that_is_not_there(self) -> None:
        status, out, err = printed("kernel", "compare", os.path.join(self.directory, "none"))
        self.assertEqual((status, out), (3, ""))
        self.assertIn("read fault", err)


if __name__ == "__main__":
    unittest.main()
