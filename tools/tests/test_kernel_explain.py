"""Why a writer paused: the cause, each number with where it stands, how a period came together, and what would have made it shorter."""
from __future__ import annotations

import os
import re
import unittest

from kernel.causes import Cause, cause_of, least, parts_of, shorter
from kernel.explaining import Explaining, Wish
from kernel.found import By, Found, found_of
from kernel.joining import Joined
from kernel.whole import told

from .given import TESTS_TEXTS, WithDirectory
from .test_kernel import CHECK, STATE, STRICT, THREE, TWO, line_of, printed, story_of

CGROUP, REALTIME = (os.path.join(TESTS_TEXTS, f"{name}.kernel.txt") for name in ("cgroup", "realtime"))


def found_in(path: str, *disks: str) -> list[tuple[Joined, Found | None]]:
    """Each check of a text, and what decided it."""
    story = story_of(path, *disks)
    return [(joined, found_of(joined, story.text.clock)) for joined in story.checks]


class Decided(unittest.TestCase):
    def test_each_rate_and_pause_comes_out_again(self) -> None:
        for path, by in ((THREE, By.MACHINE), (TWO, By.MACHINE), (STRICT, By.STRICT), (REALTIME, By.MACHINE)):
            clock = story_of(path).text.clock
            found = [(joined.check, it) for joined, it in found_in(path) if it]
            self.assertTrue(all(it.is_exact and it.rate() == check.rate for check, it in found), path)
            self.assertEqual({it.by for _, it in found}, {by}, path)
            equal = sum(clock.milliseconds(it.verdict().pause) == max(check.pause, 0) for check, it in found)
            self.assertGreaterEqual(equal, len(found) - 2, path)

    def test_a_cgroup_s_own_domain(self) -> None:
        found = [(joined.check, it) for joined, it in found_in(CGROUP) if it]
        own = [(check, it) for check, it in found if it.by is By.CGROUP]
        self.assertEqual(len(own), 64)
        self.assertTrue(all(it.rate() == check.rate for check, it in own))
        self.assertTrue({Cause.CGROUP, Cause.RATE} <= {cause_of(it) for _, it in own})

    def test_causes(self) -> None:
        causes = {cause_of(it) for path in (THREE, STRICT) for _, it in found_in(path)}
        self.assertTrue({Cause.AT_LIMIT, Cause.DOMAIN, Cause.DISK, Cause.RATE, Cause.OWN, Cause.OWN_AT_LIMIT} <= causes)
        self.assertFalse({Cause.UNKNOWN, Cause.NOT_TOLD} & causes)

    def test_the_parts_of_a_period_are_the_whole_of_it(self) -> None:
        for joined, found in found_in(THREE):
            assert found
            if parts := parts_of(found):
                whole = 1000 * sum(it.seconds for it in parts)
                of_ratio = joined.check.ratelimit * (found.verdict().ratio or 0) / 1024
                self.assertAlmostEqual(whole, 1000 * joined.check.dirtied / of_ratio)
                self.assertTrue(whole - 5 < joined.check.period + 5 and joined.check.period <= whole * 1.3 + 5)

    def test_what_would_have_been_shorter_is(self) -> None:
        checked = 0
        for joined, found in found_in(THREE)[::40]:
            assert found
            for it in shorter(found):
                checked += 1
                self.assertLessEqual(2 * it.pause, found.verdict().pause)
        self.assertGreater(checked, 50)

    def test_the_least_number_that_does(self) -> None:
        self.assertEqual(least(lambda at: 100 - at, 0, 90, 40), 60)
        self.assertIsNone(least(lambda at: 100 - at, 0, 50, 40))


class Tables(WithDirectory):
    def test_pauses_and_their_time_are_all_counted(self) -> None:
        for path in (THREE, STRICT, CGROUP):
            found = told(path, None, (), lambda text: Explaining(text, Wish()))
            paused = [joined.check.pause for joined in story_of(path).checks if joined.check.pause > 0]
            self.assertEqual(sum(it.many for it in found.sums.values()), len(paused))
            self.assertEqual(sum(it.paused for it in found.sums.values()), sum(paused))
            self.assertEqual(found.longest()[0].joined.check.pause, max(paused))

    def test_the_table_of_a_text(self) -> None:
        status, out, err = printed("kernel", "explain", THREE)
        self.assertEqual((status, err), (0, ""))
        self.assertIn("1981 checks in 12.0 s, 1818 pauses, 27.72 s paused", out)
        self.assertRegex(out, r"\nwriter-1 +domain at its hard limit +1 +0.20 +2.2 +200 +77\n")
        self.assertRegex(out, r"\nall +rate limit of the disk +1369 ")
        self.assertIn("the longest, line 77: 51332 pages are above the hard limit of 51200: rate 0, the longest pause\n", out)

    def test_a_task(self) -> None:
        for name in ("writer-2", "writer"):
            status, out, _ = printed("kernel", "explain", THREE, "--task", name)
            self.assertEqual((status, "writer-1 " in out.partition("\n\n")[2]), (0, name == "writer"))
        status, out, err = printed("kernel", "explain", THREE, "--task", "none")
        self.assertEqual((status, out), (1, ""))
        self.assertIn("no check is of that task, there are writer-1, writer-2, writer-3", err)


class OneCheck(WithDirectory):
    def rows(self, *words: str) -> dict[str, str]:
        """What each row says after its name, of a program that ends well."""
        status, out, err = printed("kernel", "explain", *words)
        self.assertEqual((status, err), (0, ""))
        return {line[:18].strip(): line[18:] for line in out.splitlines() if line[:18].strip()}

    def test_the_longest_pause(self) -> None:
        _, out, _ = printed("kernel", "explain", "--longest", THREE)
        self.assertEqual(out.splitlines()[:3], [f"{THREE}, line 77: writer-1 on disk 7:0, at 1021.725671 s",
                                                "a pause of 200 ms: domain at its hard limit",
                                                "51332 pages are above the hard limit of 51200: rate 0, the longest pause"])
        self.assertEqual(out, printed("kernel", "explain", THREE, "77")[1])
        self.assertEqual(out, printed("kernel", "explain", "--longest", "1", THREE)[1])
        self.assertEqual(printed("kernel", "explain", "--longest", "3", THREE)[1].count("a pause of 200 ms"), 3)

    def test_a_check_of_a_cgroup_is_told_the_same_however_it_is_asked_for(self) -> None:
        own = [joined.check for joined, found in found_in(CGROUP) if found and found.by is By.CGROUP and joined.check.pause > 0]
        last = max(own, key=lambda check: check.line)
        out = printed("kernel", "explain", "--longest", "9999", CGROUP)[1]
        for check in (own[0], last):
            self.assertIn(printed("kernel", "explain", CGROUP, str(check.line))[1], f"{out}\n", check.line)

    def test_each_number_stands_where_it_says(self) -> None:
        with open(THREE, encoding="ascii") as file:
            lines = file.read().splitlines()
        for number in ("77", "3002", "5985"):
            for said in printed("kernel", "explain", THREE, number)[1].splitlines():
                for line, name, value in re.findall(r"line (\d+): (?:2 \* )?(\w+) (\d+)", said):
                    self.assertRegex(lines[int(line) - 1], rf"\b{name}={value}\b")
                found = re.match(r"(pages|threshold|background|hard limit|disk's pages|pages dirtied) +(\d+) pages +line (\d+): (\w+)", said)
                if found:
                    self.assertRegex(lines[int(found[3]) - 1], rf"\b{found[4]}={found[2]}\b")

    def test_what_the_kernel_printed_stands_beside(self) -> None:
        rows = self.rows(THREE, "3002")
        self.assertRegex(rows["task rate"], r"^4909 pages/s +5950 \* 845 / 1024 \[task_ratelimit=19636")
        self.assertRegex(rows["pause"], r"^3 ticks, 12 ms .*\[pause=12\]$")
        self.assertRegex(rows["longest pause"], r"44602 / \(1 \+ 8276 / 32\) \+ 1, at most 50$")
        self.assertRegex(rows["the domain"], r"^\+1.5 ms")

    def test_a_check_by_the_line_of_its_state_or_estimate(self) -> None:
        wanted = printed("kernel", "explain", THREE, "4")[1]
        self.assertIn("line 4: writer-1", wanted)
        self.assertEqual([printed("kernel", "explain", THREE, number)[1] for number in ("2", "3")], [wanted, wanted])

    def test_a_cgroup_and_a_real_time_task(self) -> None:
        own = next(joined.check.line for joined, found in found_in(CGROUP) if found and found.by is By.CGROUP)
        rows = self.rows(CGROUP, str(own))
        self.assertIn("told by no line: it gives the rate", rows["threshold"])
        raised = next(joined.check.line for joined, _ in found_in(REALTIME) if joined.is_raised)
        self.assertIn("raised for a real-time task", self.rows(REALTIME, str(raised))["threshold"])

    def test_a_rate_that_no_rule_gives(self) -> None:
        path = self.file("text", "".join(f"{line}\n" for line in (
            line_of("global_dirty_state", STATE),
            line_of("bdi_dirty_ratelimit", "bdi 7:0: write_bw=60280 awrite_bw=65556 dirty_rate=4 dirty_ratelimit=61336 "
                                           "task_ratelimit=113328 balanced_dirty_ratelimit=65556 cgroup_ino=1"),
            line_of("balance_dirty_pages", CHECK.replace("task_ratelimit=113324", "task_ratelimit=4444")))))
        _, out, _ = printed("kernel", "explain", "--hz", "250", path, "3")
        self.assertIn("no rule that is known here gives its rate of 1111 pages/s: by the laws it would be 28331", out)

    def test_a_state_that_isn_t_there(self) -> None:
        path = self.file("text", f"{line_of('balance_dirty_pages', CHECK)}\n{line_of('global_dirty_state', STATE)}\n")
        status, out, _ = printed("kernel", "explain", path, "1")
        self.assertEqual(status, 0)
        self.assertIn("the state that it read, or an average of its disk, isn't in the text", out)

    def test_words_that_don_t_go_together(self) -> None:
        for words in ((THREE, "3000"), (THREE, "0"), (THREE, "--longest", "x"), ("--longest", "2"), (THREE, "77", "--task", "writer-1")):
            status, out, err = printed("kernel", "explain", *words)
            self.assertEqual((status, out), (1, ""), words)
            self.assertTrue(err.startswith("wb: "), err)
        self.assertIn("the next one is at line 3002", printed("kernel", "explain", THREE, "3000")[2])


if __name__ == "__main__":
    unittest.main()
