"""What a report shows of a kernel's check is what `wb kernel explain` says of it, and a forged number loses its cause."""
from __future__ import annotations

import os
import unittest
from typing import Any

from kernel.causes import Cause
from kernel.comparing import numbers
from kernel.explaining import Explaining, Wish
from kernel.whole import story_of as read_story
from kernel.whole import told as told_text
from report.kernel_why import Told, is_of_machine, lines_of, told_of
from report.of_kernel import report_of

from .given import TESTS_TEXTS, WithDirectory
from .test_kernel import CHECK, STATE, STRICT, THREE, TWO, line_of, printed

CGROUP, REALTIME, NAMES = (os.path.join(TESTS_TEXTS, f"{name}.kernel.txt") for name in ("cgroup", "realtime", "names"))
TEXTS = (THREE, TWO, STRICT, CGROUP, REALTIME, NAMES)

AVERAGE = ("bdi 7:0: write_bw=61336 awrite_bw=61336 dirty_rate=0 dirty_ratelimit=61336 task_ratelimit=61336 "
           "balanced_dirty_ratelimit=61336 cgroup_ino=1")


class Beside(unittest.TestCase):
    def test_each_sentence_and_cause_is_that_of_explain(self) -> None:
        for path in TEXTS:
            checks = report_of(read_story(path), "kernel").checks
            for shown in checks[::max(1, len(checks) // 3)]:
                number = shown.head.rpartition("line ")[2].partition(" ")[0]
                status, out, _ = printed("kernel", "explain", path, number)
                said = out.splitlines()
                self.assertEqual((status, said[2]), (0, shown.sentence), f"{path}, line {number}")
                parts = out.partition("where the period comes from:\n")[2].partition("\n\n")[0].splitlines()
                self.assertEqual([line.strip() for line in shown.why if line.startswith("  ")], parts, f"{path}, line {number}")

    def test_the_table_has_the_pauses_of_explain(self) -> None:
        for path in TEXTS:
            table = report_of(read_story(path), "kernel").tables[1]
            at = {name: place for place, name in enumerate(table.head)}
            shown: dict[tuple[str, str], list[int]] = {}
            for row in table.rows:
                if row[at["pauses"]] != "0":
                    pauses, paused, longest = (int(row[at[name]]) for name in ("pauses", "paused, ms", "longest, ms"))
                    before = shown.get((row[0], row[2]), [0, 0, 0])
                    shown[row[0], row[2]] = [before[0] + pauses, before[1] + paused, max(before[2], longest)]
            found = told_text(path, None, (), lambda text: Explaining(text, Wish()))
            self.assertGreater(len(found.sums), 0)
            self.assertEqual(shown, {(task, cause.value): [it.many, it.paused, it.longest] for (task, cause), it in found.sums.items()}, path)


class Causes(WithDirectory):
    def told(self, strict: str = "", **fields: int) -> Told:
        """A check of these fields, behind an estimate and a state."""
        line = CHECK
        for name, value in fields.items():
            before = line
            line = " ".join(f"{name}={value}" if part.split("=")[0] == name else part for part in line.split(" "))
            self.assertTrue(line != before or f"{name}={value}" in before, name)
        path = self.file("text", "\n".join([
            line_of("bdi_dirty_ratelimit", AVERAGE, "        writer-1  [000] .....  1021.518208"), line_of("global_dirty_state", STATE),
            line_of("balance_dirty_pages", line), ""]))
        story = read_story(path, 250, [strict] if strict else [])
        joined = story.checks[0]
        return told_of(joined, [it for it in numbers(story) if it.line == joined.check.line], story.text.clock)

    def test_a_domain_at_its_hard_limit(self) -> None:
        waits: dict[str, Any] = {"task_ratelimit": 0, "pause": 200, "period": 200}
        self.assertEqual(self.told(dirty=51200, **waits).cause, ("wait", Cause.AT_LIMIT.value))
        self.assertEqual(self.told(dirty=38401, **waits).cause, ("wait", Cause.UNKNOWN.value), "a rate of 0 that no law gives")
        own = {"dirty": 38400, "wb_setpoint": 10, **waits}
        for strict in ("", "7:0"):
            self.assertEqual(self.told(strict, wb_dirty=900, **own).cause, ("wait", Cause.OWN_AT_LIMIT.value), "its numbers say that it is strict")
            self.assertNotEqual(self.told(strict, wb_dirty=5, **own).cause.why, Cause.OWN_AT_LIMIT.value)

    def test_a_forged_rate_is_of_no_cause(self) -> None:
        self.assertEqual(self.told().cause.decision, "go")
        self.assertEqual(self.told(task_ratelimit=4444).cause, ("go", Cause.UNKNOWN.value))
        self.assertTrue(self.told(task_ratelimit=4444).sentence.startswith("no rule that is known here gives its rate of 1111 pages/s"))

    def test_the_pause_that_a_rate_asks_for(self) -> None:
        for period, think, pause, is_by_laws in ((40, 12, 28, True), (40, 12, 32, True), (40, 12, 60, False), (40, 12, 0, False)):
            said = next(line for line in lines_of(self.told(period=period, think=think, pause=pause)) if line.startswith("pause "))
            self.assertEqual("unexplained" in said, not is_by_laws, said)

    def test_no_pages_to_pay_for(self) -> None:
        for dirtied in (31, 33):
            told = self.told(dirtied=dirtied, dirtied_pause=32)
            lines = list(lines_of(told))
            self.assertEqual(told.cause.decision, "go")
            self.assertIn(f"period                    0 ms for {dirtied} pages at that rate, an allowance of 32", lines)
            self.assertIn("pause                     0 ms                  equal by the laws", lines)

    def test_of_whole_texts(self) -> None:
        for path in (THREE, STRICT):
            story = read_story(path)
            causes = {told_of(it, (), story.text.clock).cause for it in story.checks}
            self.assertFalse({Cause.UNKNOWN.value, Cause.NOT_TOLD.value} & {cause.why for cause in causes})
            waits = {cause.why for cause in causes if cause.decision == "wait"}
            self.assertEqual(waits, {Cause.AT_LIMIT.value if path == THREE else Cause.OWN_AT_LIMIT.value}, "nothing says that the disk is strict")

    def test_a_text_that_begins_with_a_check_tells_no_cause(self) -> None:
        path = self.file("text", f"{line_of('balance_dirty_pages', CHECK)}\n{line_of('global_dirty_state', STATE)}\n")
        story = read_story(path, 250)
        told = told_of(story.checks[0], (), story.text.clock)
        self.assertEqual(told.cause.why, Cause.NOT_TOLD.value)
        self.assertIn("isn't in the text", told.sentence)
        self.assertFalse(is_of_machine(told.joined))

    def test_a_cgroup_is_told_by_its_own_numbers(self) -> None:
        waits = {"task_ratelimit": 0, "pause": 200, "period": 200, "cgroup_ino": 77, "setpoint": 400, "wb_setpoint": 390}
        told = self.told(limit=500, dirty=600, **waits)
        self.assertFalse(is_of_machine(told.joined), "the state's line is of the machine's domain")
        self.assertIn("600 in the domain, of a hard limit of 500 and a setpoint of 400", next(lines_of(told)))


if __name__ == "__main__":
    unittest.main()
