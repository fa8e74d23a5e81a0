"""How a text of tracepoints is read: heads of lines as several programs print them, damaged texts, and the ticks a second."""
from __future__ import annotations

import contextlib
import io
import os
import re
import unittest
from unittest import mock

from kernel import common, reading
from kernel.heads import Heads
from kernel.whole import story_of
from kernel.common import read_common
from kernel.tracepoints import State, read_line
from program.errors import Cause, Fault, OtherWords

from .given import TESTS_TEXTS, WithDirectory
from .test_kernel import CHECK, STATE, THREE, TWO, line_of, printed

AT = "  1021.718208"


def heads_of(*heads: str) -> list[tuple[str, int, float]]:
    """Task, CPU and time of lines with such heads, read one after another."""
    reader = Heads()
    found = []
    for head in heads:
        read = read_line(1, f"{head}: global_dirty_state: {STATE}\n", reader)
        assert isinstance(read, State)
        found.append((read.task, read.cpu, read.time))
    return found


class HeadsOfLines(unittest.TestCase):
    def test_as_tracefs_and_trace_cmd_print(self) -> None:
        wanted = ("writer-1", 3, 1021.718208)
        for head in (f"        writer-1     [003] .....{AT}", f"        writer-1  [003]{AT}", f"   writer-1 (  12) [003] d..2.{AT}",
                     f"   writer-1 (-----) [003] .N...{AT}"):
            self.assertEqual(heads_of(head, head), [wanted, wanted], head)

    def test_as_perf_script_prints(self) -> None:
        for head, task in ((f"          writer     1 [003]{AT}", "writer-1"), (f"kworker/u4:9-fl   891 [003]{AT}", "kworker/u4:9-fl-891"),
                           (f"        a b-1 c   12/889 [003]{AT}", "a b-1 c-889"), (f"     x [000] y:   890 [003]{AT}", "x [000] y:-890")):
            line = f"{head}: writeback:global_dirty_state: {STATE}\n"
            self.assertEqual(read_line(1, line, Heads())[1:4], (task, 3, 1021.718208), head)

    def test_names_with_anything_in_them(self) -> None:
        names = ("a b-1 c-889", "x [000] y:-890", "(sd-pam)-7", "-5", "dd (1)-8")
        self.assertEqual([task for task, _, _ in heads_of(*(f"  {name}     [003] .....{AT}" for name in names))], list(names))

    def test_a_name_that_is_known_by_now(self) -> None:
        heads = [f"  {name}-889 [001] .....{AT}" for name in ("<...>", "dd", "<...>")]
        self.assertEqual([task for task, _, _ in heads_of(*heads)], ["<...>-889", "dd-889", "dd-889"])

    def test_the_short_way_reads_the_same(self) -> None:
        for event, fields in (("global_dirty_state", STATE), ("balance_dirty_pages", CHECK),
                              ("balance_dirty_pages", CHECK.replace("cgroup_ino=1", "cgroup_ino=77").replace("wb_dirty", "bdi_dirty")),
                              ("balance_dirty_pages", CHECK.replace("pause=0 period=0 think=0", "pause=-4 period=8 think=12"))):
            line = line_of(event, fields)
            self.assertIsNotNone(read_common(1, line))
            self.assertEqual(read_common(1, line), read_line(1, line, Heads()))

    def test_what_is_kept_of_numbers_is_read_again(self) -> None:
        kept = common.Kept(common.numbers)
        with mock.patch.object(common, "MOST_KEPT", 2):
            for text, told in 2 * [("1 pause=-2", (1, -2)), ("3", (3,)), ("4 period=5", (4, 5))]:
                self.assertEqual(kept[text], told)
                self.assertLessEqual(len(kept), 2)

    def test_a_text_of_such_names(self) -> None:
        story = story_of(os.path.join(TESTS_TEXTS, "names.kernel.txt"))
        self.assertEqual({it.check.task for it in story.checks}, {"a b-1 c-889", "x [000] y:-890", "kworker/u4:9-891"})
        self.assertTrue(all(it.previous for it in story.checks[3:]))


class OtherPrograms(WithDirectory):
    def test_a_text_of_each_says_the_same(self) -> None:
        with open(TWO, encoding="ascii") as file:
            lines = [re.match(r"\s*(\S+)-(\d+)\s+(\[\d+\])\s+\S+\s+(\d+\.\d+): (\w+): (.*)", line) for line in file.readlines()[:700]]
        heads = {"perf": "{0:>16} {1:>6} {2} {3:>12}: {4:>33}: {5}\n", "trace-cmd": "{6:>24} {2} {3:>12}: {4:<20} {5}\n",
                 "tracefs": "{6:>16}  {2} ..... {3:>12}: {4}: {5}\n"}
        found = {}
        for program, head in heads.items():
            text = "cpus=4\n" * (program == "trace-cmd")
            for line in filter(None, lines):
                name, number, cpu, time, event, fields = line.groups()
                event = {"perf": f"writeback:{event}", "trace-cmd": f"{event}:", "tracefs": event}[program]
                text += head.format(name, number, cpu, time, event, fields, f"{name}-{number}")
            story = story_of(self.file(program, text))
            found[program] = [(it.check[1:], it.state and it.state[1:], it.before and it.before[1:]) for it in story.checks]
        self.assertGreater(len(found["tracefs"]), 80)
        self.assertEqual(found["perf"], found["tracefs"])
        self.assertEqual(found["trace-cmd"], found["tracefs"])


class Damaged(WithDirectory):
    def fault_of(self, *lines: str) -> Fault:
        """The fault of a text of these lines, before which a check and its state stand."""
        before = [line_of("global_dirty_state", STATE), line_of("balance_dirty_pages", CHECK)]
        with self.assertRaises(Fault) as raised:
            story_of(self.file("text", "".join(f"{line}\n" for line in (*before, *lines))))
        return raised.exception

    def test_a_number_is_refused_at_its_column(self) -> None:
        for event, fields, old, new, cause in (
                ("balance_dirty_pages", CHECK, " dirty=43964", " dirty=-43964", Cause.OUT_OF_RANGE),
                ("balance_dirty_pages", CHECK, " dirty=43964", " dirty=" + "9" * 23, Cause.OUT_OF_RANGE),
                ("balance_dirty_pages", CHECK, " pause=0", " pause=-" + "9" * 23, Cause.OUT_OF_RANGE),
                ("balance_dirty_pages", CHECK, " dirty=43964", " dirty=4x964", Cause.BAD_LINE),
                ("balance_dirty_pages", CHECK, " dirty=43964", " dirty=", Cause.BAD_LINE),
                ("global_dirty_state", STATE, " limit=51200", " limit=-1", Cause.OUT_OF_RANGE),
                ("global_dirty_state", STATE, " limit=51200", " limit=" + "1" * 23, Cause.OUT_OF_RANGE)):
            line = line_of(event, fields.replace(old, new))
            fault = self.fault_of(line)
            self.assertEqual((fault.line, fault.column, fault.cause), (3, line.index(new) + new.index("=") + 2, cause), new)

    def test_pause_and_think_may_be_below_0(self) -> None:
        line = line_of("balance_dirty_pages", CHECK.replace("pause=0", "pause=-4").replace("think=0", "think=-196"))
        self.assertEqual(read_line(1, line + "\n", Heads())[15:], (-4, 0, -196))

    def test_two_lines_in_one(self) -> None:
        fault = self.fault_of(line_of("balance_dirty_pages", CHECK + line_of("balance_dirty_pages", CHECK)))
        self.assertEqual((fault.line, fault.cause), (3, Cause.BAD_LINE))
        self.assertIn("limit stands twice", str(fault))

    def test_a_head_that_is_none(self) -> None:
        for head in ("writer-1  [000] ..... -5.0", "writer-1  [000] ..... " + "9" * 23 + ".0", "writer  [000] .....", "writer-1 5.0.1"):
            fault = self.fault_of(line_of("global_dirty_state", STATE, head))
            self.assertEqual((fault.line, fault.cause), (3, Cause.BAD_LINE), head)

    def test_what_is_missing_in_a_line(self) -> None:
        fault = self.fault_of(line_of("balance_dirty_pages", "bdi 7:0: limit=1"))
        self.assertIn("line 3: bad line: balance_dirty_pages without setpoint", str(fault))

    def test_time_that_runs_backwards(self) -> None:
        for cpu, time in (("000", "1021.718207"), ("001", "1021.700000")):
            line = line_of("global_dirty_state", STATE, f"  w-9  [{cpu}] .....  {time}")
            fault = self.fault_of(line)
            self.assertEqual((fault.line, fault.column, fault.cause), (3, line.index(time) + 1, Cause.OUT_OF_PLACE))

    def test_lines_of_two_cpus_may_change_places(self) -> None:
        lines = [line_of("global_dirty_state", STATE), line_of("balance_dirty_pages", CHECK),
                 line_of("global_dirty_state", STATE, "  w-9  [001] .....  1021.718200")]
        self.assertEqual(len(story_of(self.file("text", "".join(f"{line}\n" for line in lines))).checks), 1)

    def test_a_last_line_that_is_cut_is_dropped(self) -> None:
        with open(THREE, encoding="ascii") as file:
            text = file.read()
        end = text.index("\n", 400_000) - 30
        status, out, err = printed("kernel", "compare", "--allow-unexplained", self.file("text", text[:end]))
        number = text[:end].count("\n") + 1
        self.assertEqual((status, err), (0, f"wb: {self.directory}/text: line {number} is cut: dropped\n"))
        whole = printed("kernel", "compare", "--allow-unexplained", self.file("text", text[:text.rindex("\n", 0, end) + 1]))
        self.assertEqual((out, whole[2]), (whole[1], ""))

    def test_each_fault_ends_with_its_status(self) -> None:
        path = self.file("text", line_of("global_dirty_state", STATE.replace("limit=51200", "limit=-1")) + "\n")
        status, out, err = printed("kernel", "compare", path)
        self.assertEqual((status, out), (2, ""))
        self.assertEqual(err, f"wb: {path}: line 1, column 124: out of range: limit is -1, below 0\n")

    def test_what_a_text_is_to_have(self) -> None:
        for event, fields, missing in (("global_dirty_state", STATE, "balance_dirty_pages"),
                                       ("balance_dirty_pages", CHECK, "global_dirty_state")):
            with self.assertRaisesRegex(Fault, f"missing: it has no line of {missing}"):
                story_of(self.file("text", line_of(event, fields) + "\n"))

    def test_lost_lines_are_counted_and_part_what_is_joined(self) -> None:
        lines = [line_of("global_dirty_state", STATE), "CPU:3 [LOST 12 EVENTS]", line_of("balance_dirty_pages", CHECK), ""]
        path = self.file("text", "\n".join(lines))
        story = story_of(path)
        self.assertEqual((story.text.lost, story.checks[0].state), (12, None))
        self.assertIn("lost 12 lines", printed("kernel", "compare", path)[1])


class Clocks(WithDirectory):
    def text_of(self, *spans: int) -> str:
        """A text with checks of these periods."""
        checks = [line_of("balance_dirty_pages", CHECK.replace("period=0", f"period={span}")) for span in spans]
        return self.file("text", "\n".join([line_of("global_dirty_state", STATE), *checks, ""]))

    def test_ticks_a_second_by_the_spans(self) -> None:
        for spans, second in (((10, 20), 100), ((4, 8, 16), 250), ((3, 6, 10), 300), ((7, 9), 1000)):
            path = self.text_of(*spans)
            self.assertEqual(story_of(path).text.clock.second, second)
            self.assertEqual(story_of(path, 1000).text.clock.second, 1000)

    def test_a_later_span_says_more(self) -> None:
        with mock.patch.object(reading, "FIRST_LOOK", 400):
            self.assertEqual(story_of(self.text_of(*[10] * 9, 4)).text.clock.second, 1000)
            self.assertEqual(story_of(self.text_of(*[40] * 9, 4)).text.clock.second, 250)

    def test_standard_input_is_read_again_too(self) -> None:
        with open(self.text_of(*[40] * 9, 4), encoding="ascii") as file, mock.patch.object(reading, "FIRST_LOOK", 400), \
                contextlib.redirect_stdout(io.StringIO()) as out:
            kept = os.dup(0)
            os.dup2(file.fileno(), 0)
            try:
                self.assertEqual(story_of("-").text.clock.second, 250)
            finally:
                os.dup2(kept, 0)
                os.close(kept)
        self.assertEqual(out.getvalue(), "")

    def test_progress_is_sparse(self) -> None:
        with mock.patch.object(reading, "CHUNK", 1 << 18), mock.patch.object(reading, "SPARSE", 0.0):
            _, _, err = printed("kernel", "compare", "--allow-unexplained", THREE)
        self.assertRegex(err, r"^(wb: .*three-writers.txt: \d of \d MiB\n)+$")
        self.assertEqual(printed("kernel", "compare", "--allow-unexplained", THREE)[2], "")

    def test_no_clock_has_such_spans(self) -> None:
        with mock.patch.object(reading, "SECONDS", (100, 250)), self.assertRaises(OtherWords):
            story_of(self.text_of(7))


if __name__ == "__main__":
    unittest.main()
