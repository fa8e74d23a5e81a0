"""The forecast of `tools/replay.py`: its rows are those of a run of which everything is kept, and sums over them those of a journal."""
from __future__ import annotations

import glob
import io
import os
import subprocess
import sys
import unittest
from collections import Counter
from collections.abc import Iterator
from typing import Any
from unittest import mock

from forecasting import machine as forecasting
from forecasting.events import Rows
from forecasting.interval import Interval, Places
from forecasting.machine import Forecast
from forecasting.reader import ForecastReader
from journals.events import Check, Dirtying, Done, End, Totals, Write
from journals.reader import Reader
from journals.source import HeldSource
from journals.trace import Trace
from journals.trace_reader import read_trace
from program.errors import Fault
from replay import Machine

from .given import EXAMPLES, TOOLS, WithDirectory, examples
from .test_replay import MACHINE, content, run

EVERY = (1, 100, 777, 10**9)
"""Ticks of the intervals that are tried: each moment alone, a flusher's rest, neither a divisor nor a multiple of anything, and all in one."""

LONG = ("last-step-halted.trace", "ordinary.trace", "realistic.trace")
"""Examples of a million steps and more, which would take minutes."""

TWO_PAGES = os.path.join(EXAMPLES, "two-pages.trace")
RESTING = MACHINE.format(2) + "rest 0 40000\nwrite 0 0 0 2\n"
"""A task that rests for 200 turns of the timer, of five steps each, and writes then."""


def forecast_of(trace: str, every: int) -> list[str]:
    """The lines of the forecast of a trace's text."""
    lines: list[str] = []
    machine = Forecast(trace, every, lines.extend)
    machine.run()
    return [*lines, *machine.journal()]


def read(trace: Trace, lines: list[str]) -> tuple[list[Rows], ForecastReader]:
    """The rows of a forecast, and what has read them."""
    reader = ForecastReader(HeldSource("a forecast", "".join(f"{line}\n" for line in lines).encode("ascii")), trace)
    return list(reader.intervals()), reader


class Kept(Machine):
    """A machine that keeps the moment of each step and of each entry, and how all stood after each step."""

    def open(self) -> None:
        """Nothing was made."""
        super().open()
        self.made: list[Any] = []
        self.told: list[Any] = []
        self.rates: list[Any] = []
        for it in self.cpus:
            it.log = KeptLog(self)

    def step(self, who: object, kind: str) -> None:
        """Keeps what stands after a step."""
        super().step(who, kind)
        self.made.append((self.clock, [it.exact for it in self.domains], [(it.limits.hard, it.peak + it.base) for it in self.domains]))

    def make_step(self, actor: object) -> None:
        """Keeps the estimates after a step, and after what is done at once after it."""
        super().make_step(actor)
        self.rates.append((self.clock, [(it.estimate.bandwidth, it.estimate.average, it.estimate.ratelimit) for it in self.contexts]))


class KeptLog(list):
    """A part of a journal whose entries have moments."""

    def __init__(self, machine: Kept) -> None:
        super().__init__()
        self.machine = machine

    def append(self, line: str) -> None:
        """An entry."""
        super().append(line)
        self.machine.told.append((self.machine.clock, line))

    def __iadd__(self, lines: list[str]) -> KeptLog:
        for line in lines:
            self.append(line)
        return self


def parted(records: list[Any], every: int) -> dict[int, list[Any]]:
    """What was kept, each with its moment first, by the interval of that."""
    found: dict[int, list[Any]] = {}
    for record in records:
        found.setdefault(record[0] // every, []).append(record)
    return found


def rows_of(machine: Kept, every: int) -> list[str]:
    """The rows of a run of which all was kept."""
    made, told, rates = (parted(records, every) for records in (machine.made, machine.told, machine.rates))
    lines: list[str] = []
    for number, steps in sorted(made.items()):
        entries = [line.split(" ") for _, line in told.get(number, [])]
        lines.append(f"from {number}")
        lines += domain_rows(steps)
        lines += [" ".join(map(str, ("context", context, *pages_of(machine, context, entries), *its_rates)))
                  for context, its_rates in enumerate(rates[number][-1][1])]
        lines += task_rows(entries)
    return lines


def domain_rows(steps: list[Any]) -> Iterator[str]:
    """The rows of domains, by what stood after each step."""
    for domain, (hard, bound) in enumerate(steps[-1][2]):
        counts = [counts[domain] for _, counts, _ in steps]
        yield f"domain {domain} {counts[-1]} {max(counts)} {hard} {bound}"


def pages_of(machine: Machine, context: int, entries: list[list[str]]) -> tuple[int, int]:
    """How many entries are fresh writes of a context's pages, and completions of them."""
    pages = {it.first + page for it in machine.inodes if it.context == context for page in range(it.pages)}
    fresh = [line for line in entries if line[0] == "write" and int(line[2]) in pages and line[3] == "fresh"]
    return len(fresh), len([line for line in entries if line[0] == "done" and int(line[2]) in pages])


def task_rows(entries: list[list[str]]) -> Iterator[str]:
    """The rows of tasks, by the entries that name them."""
    for task in sorted({int(line[1]) for line in entries if line[0] in ("write", "check")}):
        own = [line for line in entries if line[0] in ("write", "check") and int(line[1]) == task]
        pauses = [int(line[6]) for line in own if line[0] == "check" and line[6] != "0"]
        kinds = Counter(line[0] for line in own)
        yield " ".join(map(str, ("task", task, kinds["write"], kinds["check"], len(pauses), sum(pauses), max(pauses, default=0))))


class OfMachine(unittest.TestCase):
    def test_two_pages(self) -> None:
        self.assertEqual(forecast_of(content(TWO_PAGES), 1000), [
            "forecast 1000", "from 0", "domain 0 0 2 19995 21067", "context 0 2 2 25600 25600 25600", "task 0 2 0 0 0 0", "totals 2 2", "end done"])

    def test_each_example_has_its_forecast(self) -> None:
        forecasts = sorted(glob.glob(os.path.join(EXAMPLES, "*.forecast")))
        self.assertGreater(len(forecasts), 5)
        for path in forecasts:
            with self.subTest(os.path.basename(path)):
                wanted = content(path).splitlines()
                self.assertEqual(forecast_of(content(path.removesuffix("forecast") + "trace"), int(wanted[0].removeprefix("forecast "))), wanted)

    def test_each_row_of_examples_is_that_of_a_run_that_keeps_all(self) -> None:
        for trace, journal in examples():
            if os.path.getsize(journal) > 20000:
                continue
            machine = Kept(content(trace))
            machine.run()
            for every in EVERY:
                with self.subTest(os.path.basename(trace), every=every):
                    self.assertEqual(forecast_of(content(trace), every)[1:-2], rows_of(machine, every))

    def test_sums_over_rows_are_those_of_the_journal(self) -> None:
        traces = sorted(set(glob.glob(os.path.join(EXAMPLES, "*.trace"))) - {os.path.join(EXAMPLES, name) for name in LONG})
        self.assertGreater(len(traces), 70)
        for path in traces:
            trace = read_trace(path)
            wanted = sums_of_journal(trace, content(path))
            for every in EVERY[1:]:
                with self.subTest(os.path.basename(path), every=every):
                    self.assertEqual(sums_of_forecast(trace, forecast_of(content(path), every)), wanted)

    def test_without_a_step(self) -> None:
        self.assertEqual(forecast_of(content(os.path.join(EXAMPLES, "empty.trace")), 5), ["forecast 5", "totals 0 0", "end done"])

    def test_intervals_without_a_step_are_left_out(self) -> None:
        numbers = [line for line in forecast_of(MACHINE.format(1) + "write 0 0 0 1\n", 1) if line.startswith("from ")]
        self.assertEqual(numbers, ["from 1", "from 2"])

    def test_a_run_that_is_halted(self) -> None:
        self.assertEqual(forecast_of(content(TWO_PAGES) + "halt 3\n", 9)[-4:], ["context 0 1 0 25600 25600 25600", "task 0 1 0 0 0 0", "totals 1 0",
                                                                               "end halted"])

    def test_rows_are_told_as_soon_as_the_clock_has_left_their_interval(self) -> None:
        lines: list[str] = []
        seen: set[tuple[int, str]] = set()

        class Seen(Forecast):
            """Keeps at each step which interval it is of, and the newest one that was told."""

            def step(self, who: object, kind: str) -> None:
                """A step."""
                seen.add((self.clock // 1000, next((line for line in reversed(lines) if line.startswith("from ")), "")))
                super().step(who, kind)

        Seen(RESTING, 1000, lines.extend).run()
        self.assertEqual(sorted(seen), [(0, ""), *((number, f"from {number - 1}") for number in range(1, 41))])


class OfIntervals(unittest.TestCase):
    def test_entries_of_two_tasks_and_two_contexts(self) -> None:
        interval = Interval(Places([0, 4, 5], [1, 0, 1]), 2)
        for line in ("write 1 0 fresh", "write 1 4 fresh", "write 0 5 fresh", "write 0 5 already", "done 0 3", "done 1 4", "claim 0 9", "fold c0 1 8",
                     "check 1 0 7 0 go 9 1 0 32 16", "check 0 1 8 0 wait 5 0 0 32 13", "check 0 1 13 0 free 0 1 0 32 13", "check 0 1 14 0 go 3 1 0 32 17"):
            interval.entry(line)
        self.assertEqual((interval.dirtied, interval.written, interval.most), ([1, 2], [1, 1], []))
        self.assertEqual({task: list(it.__dict__.values()) for task, it in interval.tasks.items()},
                         {1: [2, 1, 1, 9, 9], 0: [2, 3, 2, 8, 5]})

    def test_steps(self) -> None:
        interval = Interval(Places([], []), 0)
        for counts in ([5, 1], [4, 3], [2, 2]):
            interval.step(counts)
        self.assertEqual(interval.most, [5, 3])


class Windows(unittest.TestCase):
    def with_most(self, steps: int, **more: int) -> list[str]:
        """The forecast of a run in which a replay may make so many steps."""
        with mock.patch("replay.MOST_STEPS", steps), mock.patch.multiple(forecasting, MOST_STEPS=steps, **more):
            return forecast_of(RESTING, 1000)

    def test_it_goes_on_where_a_replay_is_spent(self) -> None:
        with mock.patch("replay.MOST_STEPS", 100):
            machine = Machine(RESTING)
            machine.run()
        self.assertEqual((list(machine.journal())[-1], len(machine.steps)), ("end spent", 100))
        self.assertEqual(self.with_most(100), forecast_of(RESTING, 1000))
        self.assertEqual(self.with_most(100)[-1], "end done")

    def test_it_is_spent_after_the_most_steps_of_all(self) -> None:
        lines = self.with_most(100, MOST_FORECAST_STEPS=300)
        whole = forecast_of(RESTING, 1000)
        self.assertEqual((lines[-1], lines[:7]), ("end spent", whole[:7]))
        self.assertLess(len(lines), len(whole))

    def test_it_is_spent_where_a_moment_could_come_too_late(self) -> None:
        step = 100 * forecasting.STEP_TICKS
        self.assertEqual(self.with_most(100, LAST_MOMENT=step)[-1], "end spent")
        self.assertEqual(self.with_most(100, LAST_MOMENT=step + 90000)[-1], "end done")

    def test_no_trace_leads_to_such_a_moment_soon(self) -> None:
        """Not with as many rest and tick lines as there may be, each of the most ticks."""
        most = 10**12
        machine = Forecast(MACHINE.format(1) + "write 0 0 0 1\n", 1000, lambda _: None)
        with mock.patch.object(machine, "pending", return_value=2 * 65536 * most + 256 * most):
            machine.clock = 65536 * most
            self.assertTrue(machine.may_go_on())

    def test_what_is_pending(self) -> None:
        machine = Forecast(MACHINE.format(3) + "rest 0 5\nwrite 0 0 0 3\npace 0 1 70\nrest 0 4\ntick 9\norder 0 3\ntick 800\n", 1, lambda _: None)
        self.assertEqual(machine.pending(), 5 + 4 + 70 + 9 + 800)


def sums_of_journal(trace: Trace, text: str) -> tuple[object, ...]:
    """What the entries of a trace's journal come to: by context, by task, and in all."""
    machine = Machine(text)
    machine.run()
    journal = HeldSource("a journal", "".join(f"{line}\n" for line in machine.journal()).encode("ascii"))
    contexts, tasks, totals, ending = Counter(), Counter(), None, ""
    longest: dict[int, int] = {}
    of_page = [number for number, it in enumerate(trace.inodes) for _ in range(it.pages)]
    for event in Reader("", trace, journal).events():
        if isinstance(event, Write):
            tasks["pages", event.task] += 1
            contexts["dirtied", trace.inodes[of_page[event.page]].context] += event.dirtying is Dirtying.FRESH
        elif isinstance(event, Done):
            contexts["written", trace.inodes[of_page[event.page]].context] += 1
        elif isinstance(event, Check):
            tasks["checks", event.task] += 1
            tasks["pauses", event.task] += event.pause > 0
            tasks["ticks", event.task] += event.pause
            longest[event.task] = max(longest.get(event.task, 0), event.pause)
        elif isinstance(event, Totals):
            totals = event
        elif isinstance(event, End):
            ending = event.ending.value
    return +contexts, +tasks, {task: most for task, most in longest.items() if most}, totals, ending


def sums_of_forecast(trace: Trace, lines: list[str]) -> tuple[object, ...]:
    """What the rows of a forecast come to."""
    intervals, reader = read(trace, lines)
    contexts, tasks = Counter(), Counter()
    longest: dict[int, int] = {}
    for rows in intervals:
        for row in rows.contexts:
            contexts["dirtied", row.context] += row.dirtied
            contexts["written", row.context] += row.written
        for row in rows.tasks:
            for name in ("pages", "checks", "pauses", "ticks"):
                tasks[name, row.task] += getattr(row, name)
            longest[row.task] = max(longest.get(row.task, 0), row.longest)
    return +contexts, +tasks, {task: most for task, most in longest.items() if most}, reader.totals, reader.ending


class Program(unittest.TestCase):
    def test_it_writes_a_forecast(self) -> None:
        for words in (("forecast", "1000"), ("--as-wbsim", "forecast", "1000")):
            status, out, err = run(*words, given=content(TWO_PAGES))
            self.assertEqual((status, out.splitlines(), err), (0, forecast_of(content(TWO_PAGES), 1000), ""))
        self.assertEqual(run("forecast", "1000000000", given="cpus 1\navail 0 100\n")[0], 0)

    def test_bad_words(self) -> None:
        for words in (["0"], ["01"], ["1000000001"], [], ["1", "2"], ["+1"], ["1e3"], ["\N{SUPERSCRIPT TWO}"], ["1 "], [""]):
            status, out, err = run("--as-wbsim", "forecast", *words, given=content(TWO_PAGES))
            self.assertEqual((status, out), (1, ""), words)
            self.assertIn("usage: tools/replay.py", err)
        for words in (["forecasts", "1"], ["1", "forecast"], ["replay", "1"]):
            self.assertEqual(run(*words, given=content(TWO_PAGES))[:2], (1, ""), words)

    def test_a_text_that_is_refused(self) -> None:
        self.assertEqual(run("--as-wbsim", "forecast", "5", given="cpus 65\n"), (2, "", "wbsim: line 1: out of range\n"))

    def test_what_was_written_stays_where_the_output_fails(self) -> None:
        with subprocess.Popen([sys.executable, os.path.join(TOOLS, "replay.py"), "--as-wbsim", "forecast", "1"], stdin=subprocess.PIPE,
                              stdout=subprocess.PIPE, stderr=subprocess.PIPE, text=True) as process:
            first = self.read_some(process)
            said = process.stderr.read()
        self.assertEqual((process.returncode, said, first), (4, "wbsim: write fault\n", "forecast 1\n"))

    def read_some(self, process: subprocess.Popen[str]) -> str:
        """The first line that a program writes, whose reader then goes."""
        process.stdin.write(RESTING)
        process.stdin.close()
        first = process.stdout.readline()
        process.stdout.close()
        return first

    def test_a_spent_forecast_has_its_status(self) -> None:
        import replay

        with mock.patch("replay.MOST_STEPS", 100), mock.patch.multiple(forecasting, MOST_STEPS=100, MOST_FORECAST_STEPS=200), \
                mock.patch("sys.argv", ["replay.py", "--as-wbsim", "forecast", "1000"]), mock.patch("replay.read_whole") as given, \
                mock.patch("sys.stdout", io.StringIO()) as out, mock.patch("sys.stderr", io.StringIO()) as err:
            given.return_value.data = RESTING.encode("ascii")
            status = replay.main()
        self.assertEqual((status, out.getvalue().splitlines()[-1], err.getvalue()), (7, "end spent", "wbsim: spent\n"))

    def test_a_spent_forecast_whose_end_cannot_be_written(self) -> None:
        few = ("import sys, replay; from forecasting import machine\n"
               "replay.MOST_STEPS = machine.MOST_STEPS = machine.MOST_FORECAST_STEPS = 100\nmachine.Forecast.tell = lambda _: None\n"
               "def write(lines):\n    lines = list(lines)\n    if 'end spent' in lines:\n        written(lines)\n"
               "written, replay.write = replay.write, write\nsys.exit(replay.main())")
        with open("/dev/full", "w", encoding="ascii") as full:
            for words, ended in ((["forecast", "1000"], (4, "wbsim: write fault\n")), ([], (7, "wbsim: spent\n"))):
                done = subprocess.run([sys.executable, "-c", few, "--as-wbsim", *words], input=RESTING, stdout=full, stderr=subprocess.PIPE, text=True,
                                      check=False, cwd=TOOLS)
                self.assertEqual((done.returncode, done.stderr), ended, words)


class Memory(WithDirectory):
    MEASURED = ("import resource, sys; sys.path.insert(0, sys.argv[1]); from forecasting.machine import Forecast\n"
                "Forecast(sys.argv[2], 1000, lambda _: None).run()\n"
                "print(resource.getrusage(resource.RUSAGE_SELF).ru_maxrss)")

    def most(self, ticks: int) -> int:
        """KiB of a forecast of a rest of so many ticks."""
        trace = MACHINE.format(2) + f"rest 0 {ticks}\nwrite 0 0 0 2\n"
        done = subprocess.run([sys.executable, "-c", self.MEASURED, TOOLS, trace], capture_output=True, text=True, check=True)
        return int(done.stdout)

    def test_it_does_not_grow_with_the_run(self) -> None:
        """The steps of 800000 ticks alone, as lines, would take some 5 MiB."""
        self.assertLess(self.most(800000) - self.most(20000), 1024)


class Reading(WithDirectory):
    def setUp(self) -> None:
        super().setUp()
        self.trace = read_trace(TWO_PAGES)
        self.lines = forecast_of(content(TWO_PAGES), 1)

    def test_all_of_it(self) -> None:
        intervals, reader = read(self.trace, self.lines)
        self.assertEqual([rows.number for rows in intervals], [1, 2])
        self.assertEqual((reader.every, reader.totals, reader.ending), (1, Totals(2, 2), "done"))
        self.assertEqual((intervals[0].domains[0].most, intervals[1].contexts[0].written, intervals[0].tasks[0].pages, intervals[1].tasks),
                         (2, 2, 2, []))

    def test_what_is_none(self) -> None:
        for wrong, line in (({0: "forecast"}, 1), ({0: "timer"}, 1), ({0: None}, 1), ({1: "from 2"}, 6), ({2: None}, 3), ({2: "domain 1 0 0 0 0"}, 3),
                            ({3: "context 0 1 1 1 1"}, 4), ({4: "task 1 2 0 0 0 0"}, 5), ({4: "task 0 2 0 0 0 0\ntask 0 2 0 0 0 0"}, 6),
                            ({8: None}, 9), ({9: None}, 10), ({9: "end done\nend done"}, 11), ({8: "from 1"}, 9), ({4: "task 0 02 0 0 0 0"}, 5)):
            lines = [wrong.get(at, line) for at, line in enumerate(self.lines)]
            with self.subTest(wrong), self.assertRaises(Fault) as caught:
                read(self.trace, "\n".join(line for line in lines if line is not None).split("\n"))
            self.assertEqual(caught.exception.line, line)


if __name__ == "__main__":
    unittest.main()
