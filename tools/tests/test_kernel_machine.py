"""Pictures of a kernel's text, a trace of a machine like it, both side by side, and how a text is taken."""
from __future__ import annotations

import math
import os
import unittest
from unittest import mock

from forecasting.reader import ForecastReader
from journals import picture
from journals.reader import Reader
from journals.source import Source
from journals.trace import FirstEstimate, Pace, Trace
from journals.trace_reader import read_trace
from kernel import recording
from kernel.beside import Span, farthest, of_kernel, of_replay, rows
from kernel.beside_forecast import of_forecast
from kernel.machine import Machine, machine_of, pace_of
from kernel.machine_lines import trace_lines
from kernel.recording import Step, Wish, record
from program.errors import OtherWords

from .given import EXAMPLES, WithDirectory, events_of, trace_of
from .test_forecast import forecast_of
from .test_kernel import STRICT, THREE, TWO, numbers_of, printed, story_of
from .test_kernel_explain import CGROUP
from .test_replay import content


class Pictures(WithDirectory):
    @unittest.skipUnless(picture.is_there(), "matplotlib isn't there: the pictures are left out")
    def test_a_picture_of_each_disk(self) -> None:
        status, out, err = printed("kernel", "plot", "--to", "0.5", "--name", "two", TWO, self.directory)
        self.assertEqual((status, err), (0, ""))
        self.assertEqual(out.splitlines(), [os.path.join(self.directory, f"two-disk-7-{disk}.png") for disk in (0, 1)])

    @unittest.skipUnless(picture.is_there(), "matplotlib isn't there: the pictures are left out")
    def test_no_check_in_these_seconds(self) -> None:
        status, out, err = printed("kernel", "plot", "--from", "900", TWO, self.directory)
        self.assertEqual((status, out, err), (1, "", "wb: no check of the text is in these seconds\n"))

    @unittest.skipUnless(picture.is_there(), "matplotlib isn't there: the pictures are left out")
    def test_a_strict_disk(self) -> None:
        from kernel import drawing

        found = {(it.line, it.kind): it for it in numbers_of(STRICT, "7:0")}
        figure = drawing.compose(story_of(STRICT, "7:0"), "7:0", found, "strict", 0.0, math.inf)
        self.assertEqual(figure.axes[1].get_title(loc="left"), "task rate limits, 160: 160 equal")
        status, out, err = printed("kernel", "plot", "--to", "0.5", "--strict", "7:0", STRICT, self.directory)
        self.assertEqual((status, out, err), (0, os.path.join(self.directory, "strict-disk-disk-7-0.png") + "\n", ""))

    def test_without_matplotlib(self) -> None:
        with mock.patch("journals.picture.is_there", return_value=False):
            self.assertEqual(printed("kernel", "plot", TWO, self.directory)[0], 5)


class Machines(WithDirectory):
    def trace_of(self, machine: Machine) -> Trace:
        """The trace of a machine, read again."""
        return read_trace(self.file("trace", "".join(f"{line}\n" for line in trace_lines(machine))))

    def test_a_lawful_trace(self) -> None:
        machine = machine_of(story_of(THREE))
        trace = self.trace_of(machine)
        self.assertEqual((trace.cpus, len(trace.devices), len(trace.tasks)), (4, 2, 4))
        self.assertEqual(trace.settings["dirty_bytes"], 51200 * 4096)
        others = machine.others
        assert others
        opening = others.opening + sum(it.pages for it in machine.contexts)
        self.assertEqual((opening, others.pages), (43964, 0), "what is dirty when the text begins, also on other disks")
        self.assertEqual(trace.pages, opening + sum(writer.pages for writer in machine.writers))

    def test_the_lines_of_a_closed_loop(self) -> None:
        trace = self.trace_of(machine_of(story_of(THREE), chunk=128))
        self.assertEqual([(it.chunk, it.is_cyclic) for it in trace.devices], [(128, True), (None, False)])
        self.assertEqual(trace.contexts[0].estimate, FirstEstimate(15070, 16389, 15334))
        self.assertEqual(sorted(trace.paces), [1, 2, 3], "all tasks but the one that writes what is there in the beginning")

    def test_a_strict_disk(self) -> None:
        machine = machine_of(story_of(STRICT))
        disk = machine.devices["7:0"]
        self.assertEqual((disk.is_strict, disk.greatest), (True, 10))
        trace = self.trace_of(machine)
        self.assertEqual(([it.is_strict for it in trace.devices], trace.devices[0].greatest), ([True, False], 10))

    def test_a_cgroup(self) -> None:
        machine = machine_of(story_of(CGROUP))
        trace = self.trace_of(machine)
        self.assertEqual([it.file_pages for it in trace.cgroups], list(machine.cgroups.values()))
        self.assertEqual({it.device for it in trace.contexts[:len(machine.contexts)]}, {0})

    def test_a_rest_and_pages(self) -> None:
        self.assertEqual([pace_of(rate) for rate in (1.0, 100.0, 8000.0, 100_000.0)], [(1, 1000), (32, 320), (32, 4), (100, 1)])

    def test_more_pages_than_a_replay_has_steps_for(self) -> None:
        with mock.patch("kernel.machine.MOST_PAGES", 200_000):
            self.assertIn("cut to 156036 of 226183 pages, for which there is room", machine_of(story_of(THREE)).notes)
            whole = machine_of(story_of(THREE), is_forecast=True)
            self.assertFalse([note for note in whole.notes if note.startswith("cut")])
            self.assertGreater(sum(it.pages for it in whole.writers), 226183)
        with mock.patch("kernel.machine.MOST_PAGES", 50_000), self.assertRaises(OtherWords):
            machine_of(story_of(THREE))

    def test_a_number_that_is_no_chunk(self) -> None:
        for number in ("0", "2097153", "x"):
            status, out, err = printed("kernel", "trace", "--chunk", number, TWO)
            self.assertEqual((status, out), (1, ""), err)

    def test_a_text_that_tells_too_little(self) -> None:
        for seconds, said in (("0.0000001", "wb: the text is too short: it has no span of time\n"),
                              ("0.3", "wb: how fast disk 7:0 writes can't be told: its writers dirtied no more than it had more in the end\n")):
            self.assertEqual(printed("kernel", "trace", "--seconds", seconds, THREE), (1, "", said))

    def test_the_trace_of_examples(self) -> None:
        with open(os.path.join(EXAMPLES, "kernel", "three-writers.trace"), encoding="ascii") as file:
            self.assertEqual(file.read(), "".join(f"{line}\n" for line in trace_lines(machine_of(story_of(THREE)))))

    def test_what_it_stands_for_is_told_apart(self) -> None:
        status, out, err = printed("kernel", "trace", "--seconds", "1", TWO)
        self.assertEqual(status, 0)
        self.assertTrue(out.startswith("cpus "))
        self.assertIn("vm.dirty_bytes=300003328", err)
        self.assertIn("pages a second", err)

    def test_thresholds_that_move(self) -> None:
        machine = machine_of(story_of(TWO))
        machine.limits = [(0, 73243, 36622), (7900, 29297, 14649)]
        lines = list(trace_lines(machine))
        self.assertEqual([line for line in lines if line.startswith(("set", "avail"))],
                         ["set dirty_ratio 100", "set dirty_background_ratio 50", "avail 0 73243", "avail 7900 29297"])


class Beside(WithDirectory):
    def test_a_kernel(self) -> None:
        it = of_kernel(story_of(THREE))
        self.assertEqual(it.limits, (38400, 44800, 51200, 51200))
        self.assertTrue(38400 < it.level() < 51200)
        self.assertTrue(0 < it.paused() < 100)

    def test_a_replay(self) -> None:
        it = of_replay(trace_of("throttled"), events_of("throttled"))
        self.assertGreater(it.checks, 0)
        self.assertEqual({row.name: row.values for row in rows([it])}["checks that aren't free"], [str(it.checks)])

    def test_quotients(self) -> None:
        both = [Span("kernel", ["a"], levels=[(0, 10), (4, 20)], written=8), Span("replay", ["a"], levels=[(0, 11), (3, 30)])]
        found = {row.name: row.quotient for row in rows(both)}
        self.assertEqual((found["pages of the domain, mean"], found["pages written a second"], found["a pause, mean, ms"]), ("1.10", "0.00", ""))

    def test_how_far_two_counts_are_apart(self) -> None:
        self.assertEqual(farthest([(0, 10), (2, 20), (5, 90)], [(1, 12), (2, 13), (3, 40), (4, 40)]), (20, 3))

    def test_writers_of_a_replay(self) -> None:
        trace = trace_of("throttled")
        trace.paces[0] = Pace(1, 1)
        self.assertEqual(of_replay(trace, events_of("throttled")).writers, ["task 0"])
        self.assertLessEqual(of_replay(trace, events_of("throttled"), 0.0).checks, 1)

    def test_levels_are_held_by_time(self) -> None:
        it = Span("kernel", ["a", "b"], levels=[(0, 10), (3, 20), (4, 7)], pauses=[("a", 0, 1), ("b", 3, 5)])
        self.assertEqual((it.level(), it.paused()), (12.5, 25.0))

    def test_the_word(self) -> None:
        settled = [os.path.join(EXAMPLES, f"settled.{kind}") for kind in ("trace", "journal")]
        status, out, err = printed("kernel", "beside", TWO, *settled)
        self.assertEqual((status, err), (0, ""))
        self.assertRegex(out, r"time paused of a writer, % +\d+\.\d +\d+\.\d +\d+\.\d\d\n")
        self.assertRegex(out, r"\nthe counts are farthest apart at \d+\.\d s: \d+ pages\n$")
        status, out, err = printed("kernel", "beside", THREE, *settled, "--seconds", "0.1")
        self.assertEqual(status, 0)

    def test_a_forecast_of_the_same_trace(self) -> None:
        trace = read_trace(os.path.join(EXAMPLES, "settled.trace"))
        lines = forecast_of(content(os.path.join(EXAMPLES, "settled.trace")), 100)
        path = self.file("forecast", "".join(f"{line}\n" for line in lines))
        replay = of_replay(trace, Reader(os.path.join(EXAMPLES, "settled.journal"), trace).events())
        it = of_forecast(trace, ForecastReader(Source(path), trace))
        self.assertEqual((it.many(), it.longest(), it.writers), (replay.many(), replay.longest(), replay.writers))
        self.assertAlmostEqual(it.pause(), replay.pause())
        self.assertEqual(it.limits, replay.limits)
        for of in (Span.level, Span.paused, Span.rate_limit, lambda span: span.written, lambda span: span.seconds):
            mine, wanted = (of(span) if of is not Span.paused else span.paused() for span in (it, replay))
            self.assertLess(abs(mine - wanted), 0.1 * wanted)
        status, out, err = printed("kernel", "beside", "--forecast", THREE, os.path.join(EXAMPLES, "settled.trace"), path)
        self.assertEqual((status, err), (0, ""))
        self.assertRegex(out, r"^ +kernel +forecast +quotient\n")
        self.assertRegex(out, r"\n  at a rate of 0, % +\d+\.\d +not told\n")
        short = of_forecast(trace, ForecastReader(Source(path), trace), 3.0)
        self.assertEqual((short.seconds, short.parts), (3.0, [part for part in it.parts if part[1] < 3.0]))

    def test_a_forecast_without_a_pause(self) -> None:
        trace = os.path.join(EXAMPLES, "two-pages.trace")
        path = self.file("forecast", "".join(f"{line}\n" for line in forecast_of(content(trace), 100)))
        self.assertEqual(printed("kernel", "beside", "--forecast", THREE, trace, path), (1, "", "wb: the forecast has no pause\n"))

    def test_a_replay_that_is_short(self) -> None:
        short = [os.path.join(EXAMPLES, f"exceeded.{kind}") for kind in ("trace", "journal")]
        status, _, err = printed("kernel", "beside", THREE, *short)
        self.assertEqual(status, 0)
        self.assertRegex(err, r"^wb: the replay spans less than half of the text: \d+\.\d of 12\.0 s\n$")


class Recordings(WithDirectory):
    def dry(self, *words: str) -> list[str]:
        """What a recording would do, and then how it would put that back."""
        status, out, err = printed("kernel", "record", "--dry-run", os.path.join(self.directory, "text"), *words)
        self.assertEqual((status, err, os.listdir(self.directory)), (0, "", []))
        lines = out.splitlines()
        middle = lines.index("and then, also after an interrupt:")
        self.assertEqual(len(lines), 2 * middle + 1)
        return lines[:middle]

    def test_what_runs_is_recorded_and_nothing_is_set(self) -> None:
        for words, does in (((), "waits until an interrupt (Ctrl-C), whatever runs meanwhile"),
                            (("--seconds", "5"), "waits for 5 s, whatever runs meanwhile"),
                            (("--seconds", "5", "--", "dd", "of=/a file", "--seconds"), "runs dd 'of=/a file' --seconds")):
            lines = self.dry(*words)
            self.assertEqual((len(lines), lines[1]), (2, does))
            self.assertRegex(lines[0], "^records global_dirty_state, bdi_dirty_ratelimit, balance_dirty_pages in a buffer of its own")

    def test_a_demonstration_sets_what_it_says(self) -> None:
        lines = self.dry("--demo")
        self.assertEqual(len(lines), 7)
        self.assertTrue(any("sets vm.dirty_bytes to 200 MiB" in line for line in lines))
        self.assertIn("runs 3 dd, each of which writes a file of its own with 64 KiB a call, for 12 s", lines)
        self.assertFalse(any("slows" in line for line in self.dry("--demo", "--disk", "0")))

    def test_words_of_a_demonstration(self) -> None:
        for words in (("--writers", "2"), ("--demo", "--dirty", "10", "--background", "10"), ("--demo", "--", "dd")):
            status, out, err = printed("kernel", "record", "--dry-run", "text", *words)
            self.assertEqual((status, out), (1, ""), words)
            self.assertTrue(err.startswith("wb: "))

    def test_without_tracefs(self) -> None:
        with mock.patch.object(recording, "TRACING", os.path.join(self.directory, "none")):
            status, out, err = printed("kernel", "record", os.path.join(self.directory, "text"))
        self.assertEqual((status, out), (5, ""))
        self.assertIn("tracefs isn't there", err)

    def test_a_command_runs_to_its_end_or_to_the_time(self) -> None:
        for words, seconds, status in (("exit 3", None, 3), ("exit 0", 9, 0), ("exec sleep 60", 1, 0)):
            it = recording.Recording(Wish("text", seconds, ("sh", "-c", words)))
            it.run_command()
            it.end_command()
            assert it.command
            self.assertEqual((it.status, it.command.poll() is None), (status, False))

    def test_an_interrupt_ends_what_has_no_time_well(self) -> None:
        with mock.patch("time.sleep", side_effect=KeyboardInterrupt):
            recording.Recording(Wish("text")).wait()
            with self.assertRaises(KeyboardInterrupt):
                recording.Recording(Wish("text", 5)).wait()

    def test_a_program_that_isn_t_there(self) -> None:
        with mock.patch.object(recording, "TRACING", self.directory), mock.patch("os.geteuid", return_value=0):
            os.makedirs(os.path.join(self.directory, "events", "writeback"))
            self.assertEqual(recording.missing(Wish("text", command=("no-such-program",))), "these programs aren't there: no-such-program")
            self.assertEqual(recording.missing(Wish("text")), "")

    def test_all_is_put_back_from_the_last(self) -> None:
        said: list[str] = []

        def fails() -> None:
            raise KeyboardInterrupt

        def cannot() -> None:
            raise OSError("busy")

        steps = [Step("a", lambda: None, "no a", lambda: None), Step("b", lambda: None, "no b", cannot),
                 Step("c", fails, "no c", lambda: None), Step("d", lambda: None, "no d", lambda: None)]
        with self.assertRaises(KeyboardInterrupt):
            record(steps, said.append)
        self.assertEqual(said, ["a", "b", "c", "no c", "no b", "that could not be done: busy", "no a"])


if __name__ == "__main__":
    unittest.main()
