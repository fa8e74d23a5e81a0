"""`wb forecast`: what its tables say, and how it ends."""
from __future__ import annotations

import json
import os
import unittest

from forecasting.figures import Figures, Held
from forecasting.scene import MOST_PARTS, ForecastScene, PausedParts
from journals import picture
from journals.trace_reader import read_trace

from .given import EXAMPLES, WithDirectory
from .test_forecast import forecast_of, read
from .test_kernel import printed
from .test_replay import content

SETTLED = os.path.join(EXAMPLES, "settled.trace")
TABLES = """\
ending: done, intervals of 500 ticks, 70 of them: 35.0 s
tasks were at work until 25.0 s: rates and means are those of this time
totals: 520 pages dirtied, 520 cleaned
units: pages; pauses in ticks, 1000 a second

task  until, s  pages  pages/s  checks  pauses  pauses/s  mean pause  longest pause  paused, %
   0      25.0    292     11.7     164     113      4.52       178.7            200       80.8
   1      25.0    228      9.1     156     113      4.52       178.7            200       80.8

domain  mean count  most  hard limit  bound  least distance
     0         157   226         192    384             158

context  dirtied/s  written/s  average bandwidth  mean rate limit  rate limit
      0       20.8       14.8                 14             6075           8
"""
"""Of settled.trace: both tasks pause 113 times, for 20195 ticks, as `tools/wb summary` says of its journal; its bound is 384 and its greatest
count 226."""


class OfFigures(unittest.TestCase):
    def test_a_mean_holds_where_there_are_no_rows(self) -> None:
        it = Held(7)
        self.assertEqual(it.mean(), 0)
        it.add(2, 10)
        it.add(3, 1)
        self.assertEqual(it.mean(), (7 + 7 + 10 + 1) / 4)

    def test_they_are_of_the_time_in_which_tasks_are_at_work(self) -> None:
        trace = read_trace(SETTLED)
        intervals, _ = read(trace, forecast_of(content(SETTLED), 500))
        figures = Figures(trace)
        for rows in intervals:
            figures.take(rows)
        working = [rows for rows in intervals if rows.number < figures.until]
        self.assertTrue(working[-1].tasks and not any(rows.tasks for rows in intervals[len(working):]))
        self.assertEqual(figures.contexts[0].written, sum(rows.contexts[0].written for rows in working))
        counts = {rows.number: rows.domains[0].count for rows in working}
        held = [counts.get(number, counts[max(at for at in counts if at <= number)] if min(counts) <= number else 0) for number in range(figures.until)]
        self.assertEqual(figures.domains[0].mean, sum(held) / figures.until)
        self.assertEqual(figures.domains[0].most, max(rows.domains[0].most for rows in intervals))


class OfScenes(unittest.TestCase):
    def test_parts_are_put_together(self) -> None:
        it = PausedParts()
        for interval in range(3 * MOST_PARTS):
            it.add(interval, 2)
        self.assertEqual((it.width, len(it.parts), sum(it.parts.values())), (4, 3 * MOST_PARTS // 4, 6 * MOST_PARTS))

    def test_the_greatest_count_of_an_interval_without_rows_is_the_one_before(self) -> None:
        trace = read_trace(SETTLED)
        intervals, reader = read(trace, forecast_of(content(SETTLED), 10))
        scene = ForecastScene(trace)
        scene.every = reader.every
        for rows in intervals:
            scene.take(rows)
        places, values = scene.domains[0].most.points()
        first = next(at for at in range(1, len(intervals)) if intervals[at].number > intervals[at - 1].number + 1)
        gap = (intervals[first - 1].number + 1) * 10
        self.assertEqual(values[places.index(gap)], intervals[first - 1].domains[0].count)

    def test_thresholds_by_the_trace(self) -> None:
        scene = ForecastScene(read_trace(os.path.join(EXAMPLES, "memory-drop.trace")))
        self.assertEqual(scene.thresholds(), [(0.0, 159, 91, 23), (7.5, 39, 22, 5), (23.0, 159, 91, 23)])


class Word(WithDirectory):
    def test_tables(self) -> None:
        for program in ("--python", "--replay-py"):
            self.assertEqual(printed("forecast", SETTLED, "--every", "500", program), (0, TABLES, ""))

    def test_of_a_text_that_was_written(self) -> None:
        text = self.file("forecast", "".join(f"{line}\n" for line in forecast_of(content(SETTLED), 500)))
        self.assertEqual(printed("forecast", SETTLED, "--text", text), (0, TABLES, ""))
        cut = self.file("cut", content(text)[:-9])
        status, out, err = printed("forecast", SETTLED, "--text", cut)
        self.assertEqual((status, out), (2, ""))
        self.assertTrue(err.startswith(f"wb: {cut}: line "), err)

    def test_numbers_for_other_programs(self) -> None:
        status, out, _ = printed("forecast", SETTLED, "--every", "500", "--python", "--json")
        told = json.loads(out)
        self.assertEqual((status, told["every"], told["ending"], told["tasks"][0]["ticks"], told["domains"][0]["most"]), (0, 500, "done", 20195, 226))

    def test_a_trace_that_does_nothing(self) -> None:
        status, out, err = printed("forecast", os.path.join(EXAMPLES, "empty.trace"), "--python")
        self.assertEqual((status, out.splitlines()[0], err), (0, "ending: done, intervals of 200 ticks, 0 of them: 0.0 s", ""))

    def test_words_that_do_not_go_together(self) -> None:
        for words in (("--every", "0"), ("--every", "1000000001"), ("--text", "x", "--every", "5"), ("--text", "x", "--python"), ("--out", "x.txt"),
                      ("--python", "--binary", "x")):
            status, out, err = printed("forecast", SETTLED, *words)
            self.assertEqual((status, out), (1, ""), words)
            self.assertTrue(err.startswith("wb: "), words)

    def test_a_program_that_ends_otherwise_than_well(self) -> None:
        other = self.file("program", "#!/bin/sh\n[ \"$1\" != --version ] || exit 1\necho 'wbsim: usage: another one' >&2\nexit 1\n")
        os.chmod(other, 0o755)
        status, out, err = printed("forecast", SETTLED, "--binary", other)
        self.assertEqual((status, out), (5, ""))
        self.assertEqual(err, f"wb: {SETTLED}: the forecast by {other} ended with 1: wbsim: usage: another one\n")

    def test_a_trace_that_is_none(self) -> None:
        status, out, err = printed("forecast", self.file("bad.trace", "cpus 65\n"), "--python")
        self.assertEqual((status, out), (2, ""))
        self.assertIn("bad.trace: line 1", err)

    @unittest.skipUnless(picture.is_there(), "there is no matplotlib: pictures are left out")
    def test_a_picture(self) -> None:
        for name in ("cgroup", "two-pages", "memory-drop"):
            path = os.path.join(self.directory, f"{name}.png")
            status, out, err = printed("forecast", os.path.join(EXAMPLES, f"{name}.trace"), "--python", "--every", "100", "--out", path)
            self.assertEqual((status, out.splitlines()[-1], err), (0, path, ""))
            self.assertGreater(os.path.getsize(path), 10000)
        self.assertEqual(printed("forecast", SETTLED, "--python", "--out", path)[0], 1, "nothing is written over")


if __name__ == "__main__":
    unittest.main()
