"""A journal is read whole, and a text that is none is refused at its line, with its cause."""
from __future__ import annotations

import os

from journals.events import Age, Check, Decision, Dirtying, Fold, Left, Notice, Scope, Step, StepKind, Strict, Take, Write
from journals.reader import Reader
from journals.source import MOST_LINE, PIECE
from journals.trace_reader import read_trace, trace_of as trace_of_text
from journals.whole_text import WholeText
from program.errors import Cause, Fault, ReadFault

from .given import EXAMPLES, WithDirectory, events_of, examples, text, trace_of

ENDINGS = ("done", "halted", "spent", "faulted")


class Journals(WithDirectory):
    def refusal(self, name: str, content: str) -> tuple[int, Cause]:
        """Where and why a text is refused as a journal of a trace of texts/."""
        with self.assertRaises(Fault) as caught:
            list(Reader(self.file("journal", content), trace_of(name)).events())
        return caught.exception.line, caught.exception.cause

    def test_every_example_has_an_event_for_each_line(self) -> None:
        for trace, journal in examples():
            with open(journal, encoding="ascii") as file:
                lines = len(file.readlines())
            self.assertEqual(len(list(Reader(journal, read_trace(trace)).events())), lines, journal)

    def test_what_lines_say(self) -> None:
        events = events_of("throttled")
        self.assertEqual(events[7], Write(0, 0, Dirtying.FRESH))
        self.assertIn(Check(1, 1, 8, 0, Decision.WAIT, 5, 0, 0, 1, 13), events)
        self.assertIn(Step(77, None, StepKind.COUNT, (4, 2), (423, 155)), events)
        self.assertIn(Fold(Scope.DOMAIN, 0, 4, -32), events_of("threads"))
        self.assertEqual([event.page for event in events_of("threads") if isinstance(event, Left)], [0, 1, 41])

    def test_lines_of_an_ageing_device(self) -> None:
        trace = read_trace(f"{EXAMPLES}/age-background.trace")
        with open(f"{EXAMPLES}/age-background.journal", encoding="ascii") as file:
            journal = file.read()
        events = list(Reader(f"{EXAMPLES}/age-background.journal", trace).events())
        told = [event for event in events if isinstance(event, (Notice, Age, Take))]
        self.assertEqual(told, [Notice(0, 1, 1), Notice(0, 0, 101), Age(0, 1, 101, 101), Take(0, 0)])
        for wrong, cause in (("take 0 2", Cause.UNKNOWN_NAME), ("take 1 0", Cause.UNKNOWN_NAME), ("take 0", Cause.BAD_LINE)):
            with self.assertRaises(Fault) as caught:
                list(Reader(self.file("journal", journal.replace("take 0 0", wrong)), trace).events())
            self.assertEqual(caught.exception.cause, cause, wrong)

    def test_lines_of_strict_contexts(self) -> None:
        trace = text("throttled.trace") + "strict 0\n"
        strict = trace_of_text(WholeText("t", trace.encode("ascii")))
        *lines, end = text("throttled.journal").splitlines(keepends=True)
        both = ["strict 0 3 1040\n", "strict 1 2 1040\n"]
        events = list(Reader(self.file("journal", "".join([*lines, *both, end])), strict).events())
        self.assertEqual(events[-3:-1], [Strict(0, 3, 1040), Strict(1, 2, 1040)])
        self.assertEqual(len(list(Reader(self.file("journal", "".join([*lines, end])), strict).events())), len(lines) + 1)
        for wrong, cause in ((both[:1], Cause.OUT_OF_PLACE), (both[::-1], Cause.OUT_OF_PLACE), ([*both, both[1]], Cause.OUT_OF_PLACE),
                             (["strict 2 1 1\n"], Cause.UNKNOWN_NAME)):
            with self.assertRaises(Fault) as caught:
                list(Reader(self.file("journal", "".join([*lines, *wrong, end])), strict).events())
            self.assertEqual(caught.exception.cause, cause, wrong)
        self.assertEqual(self.refusal("throttled", "".join([*lines, *both, end])), (len(lines) + 1, Cause.OUT_OF_PLACE))

    def test_each_ending(self) -> None:
        for name in ("throttled", "threads"):
            whole = text(name + ".journal").splitlines(keepends=True)
            for ending in ENDINGS:
                path = self.file("journal", "".join([*whole[:-1], f"end {ending}\n"]))
                self.assertEqual(list(Reader(path, trace_of(name)).events())[-1].ending.value, ending)
            self.assertEqual(self.refusal(name, "".join([*whole[:-1], "end well\n"])), (len(whole), Cause.BAD_LINE))

    def test_a_text_that_ends_early(self) -> None:
        lines = text("throttled.journal").splitlines(keepends=True)
        for many in range(len(lines)):
            self.assertEqual(self.refusal("throttled", "".join(lines[:many])), (many + 1, Cause.ENDS_EARLY))

    def test_a_line_that_is_none(self) -> None:
        for name in ("throttled", "threads"):
            lines = text(name + ".journal").splitlines(keepends=True)
            for place, line in enumerate(lines):
                others = line[:-1] + " 0\n", " " + line, line.upper(), line[:-1] + "\r\n", "\n", "# a comment\n", line[:-1] + " \n"
                other = others[place % len(others)]
                content = "".join([*lines[:place], other, *lines[place + 1:]])
                self.assertEqual(self.refusal(name, content), (place + 1, Cause.BAD_LINE), other)

    def test_a_number_that_is_spelled_otherwise(self) -> None:
        lines = text("throttled.journal").splitlines(keepends=True)
        for number in ("00", "+1", "-0", "-1", "1_0", "0x1", "", "\xb2"):
            content = "".join([*lines[:-2], f"totals {number} 5\n", lines[-1]])
            self.assertEqual(self.refusal("throttled", content), (len(lines) - 1, Cause.BAD_LINE), number)

    def test_a_line_out_of_its_place(self) -> None:
        lines = text("throttled.journal").splitlines(keepends=True)
        place = {line.split(" ")[0].strip(): number for number, line in reversed(list(enumerate(lines)))}
        moved = [
            (place["cpu"], "write 0 0 fresh\n"),     # before the first CPU's part
            (place["write"], "limits 0 1 1 1 1\n"),  # the timer's lines in a CPU's part
            (place["write"], "check 0 0 1 0 free 0 16 0 16 1\n"),  # a check of which nothing was read
            (place["count"], "read 0 0 1 1 1 0 0 0 0 1\n"),
            (place["check"], "write 0 0 fresh\n"),   # between what a check read and the check
            (place["write"], "cpu 0\n"),             # the next CPU is 1
            (place["steps"], "step 1 0 add 1 423 1 155\n"),
            (place["step"], "step 2 0 add 1 423 1 155\n"),
            (place["census"], "claim 0 0\n"),
            (place["totals"], "left 0 dirty\n"),
            (len(lines), "end done\n"),
        ]
        for number, line in moved:
            content = "".join([*lines[:number], line, *lines[number:]])
            self.assertEqual(self.refusal("throttled", content), (number + 1, Cause.OUT_OF_PLACE), line)

    def test_a_check_of_another_context_than_was_read(self) -> None:
        content = text("throttled.journal").replace("count 0 0 0\n", "count 1 0 0\n", 1)
        self.assertEqual(self.refusal("throttled", content), (12, Cause.OUT_OF_PLACE))

    def test_left_pages_stand_in_order(self) -> None:
        content = text("threads.journal").replace("left 1 dirty\n", "left 0 dirty\n")
        self.assertEqual(self.refusal("threads", content)[1], Cause.OUT_OF_PLACE)

    def test_a_name_that_the_trace_has_not(self) -> None:
        for line, other in [("write 0 0 fresh", "write 2 0 fresh"), ("write 0 0 fresh", "write 0 8 fresh"),
                            ("claim 0 0", "claim 1 0"), ("share 1 1 2", "share 2 1 2"), ("est 1 1", "est 2 1"),
                            ("cpu 1", "cpu 2"), ("period 0 1", "period 2 1"), ("step 1 0 dirty", "step 1 2 dirty"),
                            ("done 0 5", "fold c2 1 1"), ("done 0 5", "fold d2 1 1")]:
            content = text("throttled.journal").replace(line, other, 1)
            self.assertEqual(self.refusal("throttled", content)[1], Cause.UNKNOWN_NAME, other)

    def test_steps_have_a_count_and_a_bound_for_each_domain(self) -> None:
        content = text("throttled.journal").replace("step 1 0 dirty 1 423 0 155\n", "step 1 0 dirty 1 423\n")
        self.assertEqual(self.refusal("throttled", content)[1], Cause.BAD_LINE)

    def test_a_trace_is_no_journal(self) -> None:
        self.assertEqual(self.refusal("throttled", text("throttled.trace")), (1, Cause.BAD_LINE))

    def test_a_text_without_line_feeds(self) -> None:
        self.assertEqual(self.refusal("throttled", "timer\n" + "x" * (MOST_LINE + 1)), (2, Cause.BAD_LINE))
        self.assertEqual(self.refusal("throttled", "timer"), (1, Cause.BAD_LINE))

    def test_lines_across_pieces(self) -> None:
        """Read in pieces, a line that begins in one piece and ends in the next is still one line."""
        head = "timer\nlimits 0 512 399902 199707 399902\ncpu 0\n"
        writes = "".join(f"write 0 {page % 80} fresh\n" for page in range(3 * PIECE // 15))
        path = self.file("journal", head + writes + "cpu 1\ncensus 0 0\ntotals 0 0\nend done\n")
        self.assertGreater(os.path.getsize(path), 2 * PIECE)
        events = list(Reader(path, trace_of("threads")).events())
        self.assertEqual([event.page for event in events[3:-4]], [page % 80 for page in range(3 * PIECE // 15)])

    def test_a_file_that_can_not_be_read(self) -> None:
        for path in (os.path.join(self.directory, "none"), self.directory):
            with self.assertRaises(ReadFault):
                list(Reader(path, trace_of("threads")).events())
