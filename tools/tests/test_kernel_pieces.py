"""A text that several processes read in pieces: what they find is what one finds that reads all, wherever it is cut."""
from __future__ import annotations

import os
import signal
import unittest
from collections.abc import Callable, Iterable
from unittest import mock

from kernel import before, joining, pieces, reading
from kernel.comparing import Comparing
from kernel.explaining import Explained, Explaining, Wish
from kernel.pieces import InOrder, Whole, read_piece, read_pieces
from kernel.reading import Text
from kernel.whole import taken, told, told_in_pieces
from laws.clock import Clock
from program.errors import Fault

from .given import TESTS_TEXTS, WithDirectory
from .test_kernel import CHECK, STATE, STRICT, THREE, TWO, line_of, printed

CGROUP, NAMES, REALTIME = (os.path.join(TESTS_TEXTS, f"{name}.kernel.txt") for name in ("cgroup", "names", "realtime"))
SAMPLE = ("bdi 7:0: write_bw=61440 awrite_bw=61440 dirty_rate=1000 dirty_ratelimit=61336 task_ratelimit=113324 "
          "balanced_dirty_ratelimit=61000 cgroup_ino=1")


def explaining(text: Text) -> Explaining:
    """Explains some of the longest pauses."""
    return Explaining(text, Wish(longest=5))


def of_text(text: Text) -> object:
    """What was seen of a text."""
    return text.lost, text.cut, text.disks_seen, text.states_seen


def compared(found: Comparing) -> object:
    """All that was counted."""
    for tally in found.tallies.values():
        tally.settle()
    tallies = {group: (tally.checks, tally.counts, tally.farthest) for group, tally in found.tallies.items()}
    return tallies, found.frees, found.estimates, found.strict, found.raised, of_text(found.text)


def explained(found: Explaining) -> object:
    """All that was explained."""
    def one(it: Explained) -> object:
        return it.cause, it.joined.check, it.joined.state, it.joined.before, it.joined.after, it.found and it.found.average

    return (found.checks, found.begin, found.end, list(found.sums.items()), found.tasks, found.next_line,
            [one(it) for it in found.longest()], of_text(found.text))


class InPieces(WithDirectory):
    """Texts that are cut at places."""

    def whole(self, path: str, clock: Clock, strict: Iterable[str] = (), is_guessed: bool = False) -> Whole:
        """A text."""
        file = open(path, "rb")  # pylint: disable=consider-using-with
        self.addCleanup(file.close)
        return Whole(file, path, clock, is_guessed, tuple(strict))

    def lines_of(self, path: str, begin: int = 0, many: int | None = None) -> str:
        """A text of some lines of another one."""
        with open(path, encoding="latin-1") as file:
            lines = file.read().splitlines(keepends=True)
        return self.file("part", "".join(lines[begin:None if many is None else begin + many]))

    def assert_same(self, path: str, second: int, each: int = 1, strict: Iterable[str] = ()) -> int:
        """Cut at the beginning of each so many lines, a text gives the same. Answers how often that was left to one process."""
        whole = self.whole(path, Clock(second), strict)
        wanted = compared(taken(whole, Comparing, False)[0]), explained(taken(whole, explaining, False)[0])
        with open(path, "rb") as file:
            lines = file.read().splitlines(keepends=True)
        place = left = 0
        for number, line in enumerate(lines, 1):
            place += len(line)
            if number % each or place == whole.size:
                continue
            try:
                found = (compared(self.joined(whole, Comparing, place)), explained(self.joined(whole, explaining, place)))
                self.assertEqual(found, wanted, (path, number))
            except InOrder:
                left += 1
        return left

    def joined(self, whole: Whole, make: Callable[[Text], pieces.J], place: int) -> pieces.J:
        """What both pieces give, cut at a place."""
        first, second = (read_piece(whole, make, *piece) for piece in ((0, place), (place, whole.size)))
        first.join(second)
        return first


class Cut(InPieces):
    def test_at_lines_of_texts_of_all_kinds(self) -> None:
        self.assertEqual(self.assert_same(self.lines_of(NAMES, 0, 90), 250, 2), 0)
        self.assertEqual(self.assert_same(self.lines_of(REALTIME, 0, 90), 1000, 2), 0)
        self.assertEqual(self.assert_same(self.lines_of(THREE, 0, 80), 250), 0)
        self.assertEqual(self.assert_same(self.lines_of(TWO, 400, 90), 250), 0)
        self.assertEqual(self.assert_same(self.lines_of(STRICT, 0, 80), 250, 3, strict=["7:0"]), 0)

    def test_checks_by_a_cgroup_s_own_domain_are_left_to_one_process(self) -> None:
        self.assertGreater(self.assert_same(self.lines_of(CGROUP, 0, 60), 250, 9), 3)
        size = os.path.getsize(CGROUP)
        with mock.patch.object(pieces, "LEAST_PIECE", size // 2), mock.patch.object(pieces, "processes", lambda _: 2):
            self.assertEqual(compared(told_in_pieces(CGROUP, None, (), Comparing)), compared(told(CGROUP, None, (), Comparing)))

    def test_where_lines_were_lost_and_names_come_late(self) -> None:
        heads = [f"  {name}-{number}  [00{cpu}] ....." for name, number, cpu in
                 [("<...>", 7, 0), ("dd", 7, 1), ("x [000] y:", 8, 0), ("<...>", 7, 1), ("dd", 9, 0), ("dd", 7, 0), ("<...>", 9, 0)] * 2]
        lines = []
        for at, head in enumerate(heads):
            events = [("global_dirty_state", STATE.replace("dirty=43964", f"dirty={43000 + at}"))] * (1 + at % 3)
            events += [("bdi_dirty_ratelimit", SAMPLE)] * (at in (1, 4, 9)) + [("global_dirty_state", STATE)] * (at == 5)
            events += [("balance_dirty_pages", CHECK)] * (at != 2)
            lines += [line_of(event, fields, f"{head}  102{at:02}.71820{place}") for place, (event, fields) in enumerate(events)]
            lines += ["CPU:1 [LOST 3 EVENTS]"] * (at in (3, 8))
        path = self.file("text", "\n".join([*lines, "", "# end", "  dd-7  [000] ..... 1029.0: a line that is c"]))
        for chunk in (reading.CHUNK, 300):
            with mock.patch.object(reading, "CHUNK", chunk), mock.patch.object(before, "NEAR", 100):
                self.assertEqual(self.assert_same(path, 250), 0)

    def test_which_thresholds_are_raised_where_names_come_late(self) -> None:
        plain, other, raised = (f"dirty=30000 writeback=0 bg_thresh={background} thresh={thresh} limit=25600 dirtied=1 written=1"
                                for thresh, background in ((25600, 12800), (20000, 10000), (32800, 16800)))
        states = [("dd-7", plain), ("<...>-8", other), ("dd-7", plain), ("<...>-8", plain), ("dd-7", other), ("dd-7", plain)] * 3
        events = [(task, "global_dirty_state", fields) for task, fields in states]
        for at in (19, 15, 9, 3):
            events[at:at] = [("rt-9", "global_dirty_state", raised), ("rt-9", "balance_dirty_pages", CHECK)]
        lines = [line_of(event, fields, f"  {task}  [000] .....  {1000 + at}.000001") for at, (task, event, fields) in enumerate(events)]
        path = self.file("text", "\n".join([*lines, ""]))
        self.assertGreater(printed("kernel", "compare", path)[1].count("rt-9"), 0)
        self.assertEqual(self.assert_same(path, 250), 0)

    def test_what_waits_for_long_and_what_a_task_was_free_before(self) -> None:
        with mock.patch.object(joining, "MOST_WAITING", 7), mock.patch.object(before, "MOST_WAITING", 7), \
                mock.patch.object(reading, "CHUNK", 4000):
            self.assertEqual(self.assert_same(self.lines_of(TWO, 300, 120), 250, 3), 0)
            self.assertEqual(self.assert_same(self.lines_of(THREE, 0, 60), 250, 3), 0)

    def test_other_programs_heads(self) -> None:
        for head in ("           dd     7 [000]  {}", "              dd-7     [000]   {}"):
            for event in ("writeback:{}", "{}"):
                lines = [line_of(event.format(name), fields, head.format(f"102{at % 9}.7{at:05}")) for at, (name, fields) in enumerate(
                    [("global_dirty_state", STATE), ("bdi_dirty_ratelimit", SAMPLE), ("balance_dirty_pages", CHECK),
                     ("global_dirty_state", STATE), ("global_dirty_state", STATE), ("balance_dirty_pages", CHECK)])]
                self.assertEqual(self.assert_same(self.file("text", "\n".join([*lines, ""])), 250), 0)


class Processes(InPieces):
    def read(self, path: str, make: Callable[[Text], pieces.J], *shares: float) -> pieces.J | None:
        """What processes find, with cuts at these shares of a text."""
        whole = self.whole(path, Clock(250), is_guessed=True)
        source = reading.Source(whole.file)
        places = [0, *(source.next_line(int(whole.size * share)) for share in shares), whole.size]
        return read_pieces(whole, make, places)

    def test_they_find_the_same(self) -> None:
        for path in (self.lines_of(THREE, 0, 900), TWO):
            found = self.read(path, Comparing, 0.2, 0.7)
            assert found
            self.assertEqual(compared(found), compared(told(path, None, (), Comparing)))
            why = self.read(path, explaining, 0.4)
            assert why
            self.assertEqual(explained(why), explained(told(path, None, (), explaining)))

    def test_the_program_prints_the_same(self) -> None:
        words = (("compare",), ("compare", "--allow-unexplained"), ("explain",), ("explain", "--longest", "4"))
        for path in (TWO, STRICT):
            wanted = [printed("kernel", *it, path)[:2] for it in words]
            with mock.patch.object(pieces, "LEAST_PIECE", os.path.getsize(path) // 3), mock.patch("os.sched_getaffinity", lambda _: {0, 1, 2}):
                self.assertEqual(pieces.processes(os.path.getsize(path)), 3)
                self.assertEqual([printed("kernel", *it, path)[:2] for it in words], wanted)

    def test_the_first_refusal_is_the_one_of_the_text(self) -> None:
        with open(THREE, encoding="latin-1") as file:
            lines = file.read().splitlines(keepends=True)[:900]
        for wrong in ([500, 800], [300, 500], [130]):
            changed = [line.replace(" thresh=", " thresh=x") if at in wrong else line for at, line in enumerate(lines)]
            changed[700] = changed[700].replace("1023.", "1020.", 1)
            path = self.file("text", "".join(changed))
            with self.assertRaises(Fault) as one, open(path, "rb") as file:
                taken(Whole(file, path, Clock(250), False, ()), Comparing, False)
            with self.assertRaises(Fault) as many:
                self.read(path, Comparing, 0.15, 0.5, 0.7)
            self.assertEqual((str(many.exception), many.exception.line, many.exception.column),
                             (str(one.exception), one.exception.line, one.exception.column))

    def test_a_clock_that_was_guessed_wrongly(self) -> None:
        with open(THREE, encoding="latin-1") as file:
            text = file.read()
        at = text.index(" period=", len(text) // 2)
        path = self.file("text", text[:at] + " period=7" + text[text.index(" think=", at):])
        with self.assertRaises(reading.OtherClock):
            self.read(path, Comparing, 0.3)

    def test_a_process_that_comes_to_no_end(self) -> None:
        def make(text: Text) -> Comparing:
            found = Comparing(text)
            self_ended = os.getpid() != here
            found.follow = lambda _: os.kill(os.getpid(), signal.SIGKILL) if self_ended else None  # type: ignore[method-assign]
            return found

        here = os.getpid()
        self.assertIsNone(self.read(THREE, make, 0.5))

    def test_how_many(self) -> None:
        with mock.patch("os.sched_getaffinity", lambda _: set(range(64))):
            self.assertEqual([pieces.processes(size) for size in (0, 1 << 20, 9 << 20, 1 << 30)], [1, 1, 2, pieces.MOST_PROCESSES])
        with mock.patch("os.sched_getaffinity", lambda _: {3}):
            self.assertEqual(pieces.processes(1 << 30), 1)

    def test_where_it_is_cut(self) -> None:
        with open(THREE, "rb") as file:
            size = os.path.getsize(THREE)
            places = pieces.cuts(file, size, 4)
            self.assertEqual((len(places), places[0], places[-1]), (5, 0, size))
            sizes = [end - begin for begin, end in zip(places, places[1:])]
            self.assertEqual(sizes, sorted(sizes, reverse=True))
            for place in places[1:-1]:
                file.seek(place - 1)
                self.assertEqual(file.read(1), b"\n")
            self.assertEqual(pieces.cuts(file, 0, 4), [0])

    def test_progress_is_of_all(self) -> None:
        with mock.patch.object(reading, "SPARSE", 0.0), mock.patch.object(reading, "CHUNK", 1 << 16), \
                mock.patch.object(pieces, "LEAST_PIECE", 1 << 19), mock.patch("os.sched_getaffinity", lambda _: {0, 1}):
            _, _, err = printed("kernel", "compare", "--allow-unexplained", THREE)
        self.assertRegex(err, r"^(wb: .*three-writers.txt: \d of \d MiB\n)+$")


if __name__ == "__main__":
    unittest.main()
