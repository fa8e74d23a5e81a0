"""Studies: the file, the runs by their numbers, the table, its pictures, and what a study does that was stopped."""
from __future__ import annotations

import collections
import csv
import os
import signal
import stat
import subprocess
import sys
import time
import unittest
from importlib.util import find_spec
from unittest import mock

from jobs import engine
from journals import picture, step_sums
from journals.events import Decision
from journals.figures import figures
from journals.reader import Reader
from journals.step_sums import steps_of, sums
from journals.summary import Summary
from journals.trace_reader import read_trace, trace_of
from journals.whole_text import WholeText
from program.errors import Error, Fault, OtherWords
from search.editing import parameter
from search.running import measured, read
from study.grid import changed, name_of, point_of, settings
from study.reading import Refused, read_study, runs_of, study_of
from study.spread import Spread, at, spreads
from study.table import Table, read_table
from study.words.plot_study import fixed_of

from .given import EXAMPLES, TOOLS, WithDirectory, examples
from .loopback import below
from .test_kernel import printed
from .test_search import ONE_BY_ONE

FOLD = os.path.join(EXAMPLES, "fold.trace")
NO_PARALLEL = "GNU parallel isn't there (Debian's package is parallel): no test of a study that is killed"
HAS_TOML = unittest.skipUnless(find_spec("tomllib"), "Python is older than 3.11: no test of studies")
STUDY = """traces = ["{}"]
repeats = 2
keep = ["journals", "traces"]
[over]
cap = [8, "1..3..2"]
device-0 = [5, 25600]
"""
PROGRAM = """#!/bin/sh
[ "$1" = replay ] || exit 1
cap=$(sed -n 's/^cap //p')
echo begun $cap >> {log}
{more}
echo ended $cap >> {log}
exec cat {journal}
"""


def content(path: str) -> str:
    """A file."""
    with open(path, encoding="utf-8") as file:
        return file.read()


class Files(WithDirectory):
    @HAS_TOML
    def test_a_study(self) -> None:
        study = read_study(self.file("study.toml", STUDY.format(FOLD)))
        self.assertEqual((study.traces[0].name, study.over, study.repeats), ("fold", {"cap": [1, 3, 8], "device-0": [5, 25600]}, 2))
        self.assertEqual((study.command, runs_of(study)), ("replay", 12))

    @HAS_TOML
    def test_the_study_of_the_examples(self) -> None:
        study = read_study(os.path.join(EXAMPLES, "settled.toml"))
        self.assertEqual((runs_of(study), list(study.over)), (36, ["device-0", "dirty_bytes"]))
        for point in settings(study.spec(), 36):
            trace = changed(study.spec(), study.traces[0].data.decode(), point.values)
            self.assertEqual(trace_of(WholeText("trace", trace.encode())).pages, 64 + 152 * 3)

    @HAS_TOML
    def test_what_is_no_study(self) -> None:
        for text, why in (("traces = 1", "traces is a list"), ("speed = 1", "no 'speed'"), ("traces = ['a']\nrepeats = 0", "repeats"),
                          ("traces = ['a']\ncommand = 'bulk'", "command is one of"), ("traces = ['a']\nkeep = ['all']", "keep is a list"),
                          ("traces = ['a']\nrepeats = \n", "line 2"), ("traces = ['a']\nover = 1", "over is a table")):
            with self.assertRaisesRegex(Refused, why):
                read_study(self.file("study.toml", text))

    def test_what_values_are_none(self) -> None:
        for over in ({"speed": [1]}, {"cap": ["1..2"]}, {"cap": ["1..9999999..1"]}):
            with self.assertRaises(OtherWords):
                study_of({"traces": [FOLD], "over": over}, "")
        for over in ({"cap": 1}, {"cap": []}, {"cap": [1.5]}, {"cap": [True]}):
            with self.assertRaises(ValueError):
                study_of({"traces": [FOLD], "over": over}, "")
        with self.assertRaisesRegex(ValueError, "two traces have one name"):
            study_of({"traces": [FOLD, FOLD]}, "")

    def test_each_run_has_a_point_of_its_own(self) -> None:
        spec = {"traces": [{"name": "a"}, {"name": "b"}], "over": [["cap", [1, 2, 3]], ["device-0", [5, 6]]], "repeats": 2}
        points = [point_of(spec, run) for run in range(24)]
        self.assertEqual(len(set(points)), 24)
        self.assertEqual([(it.trace, it.values, it.repeat) for it in points[:5]], [
            (0, (1, 5), 0), (0, (1, 5), 1), (0, (1, 6), 0), (0, (1, 6), 1), (0, (2, 5), 0)])
        self.assertEqual((points[12].trace, points[23].values), (1, (3, 6)))
        self.assertEqual(name_of(spec, points[23]), "b with cap 3 and device-0 6")
        self.assertIn("cap 3\navail 0 100000\ndevice 0 6 0 100\n", changed(spec, content(FOLD), (3, 6)))


class Sums(unittest.TestCase):
    def test_they_are_those_of_an_event_for_each_step(self) -> None:
        compared = 0
        for trace, journal in examples():
            if os.path.getsize(journal) > 60_000:
                continue
            summary = Summary(read_trace(trace))
            for event in Reader(journal, summary.trace).events():
                summary.take(event)
            text = content(journal).encode()
            found, domain = sums(text, *steps_of(text)), summary.domains[0]
            if summary.steps:
                self.assertEqual((found.steps, found.greatest, found.bound, found.distance),
                                 (summary.steps, domain.greatest, domain.bound_there, domain.least_distance), journal)
            else:
                self.assertIsNone(found)
            compared += 1
        self.assertGreater(compared, 20)

    def test_they_are_the_same_where_steps_are_passed_over(self) -> None:
        for trace, journal in examples():
            text = content(journal).encode()
            whole = sums(text, *steps_of(text))
            with mock.patch.object(step_sums, "LEAF", 64):
                self.assertEqual(sums(text, *steps_of(text)), whole, journal)

    def test_what_is_measured_is_what_the_events_say(self) -> None:
        for trace, journal in examples():
            if os.path.getsize(journal) > 60_000:
                continue
            summary = Summary(read_trace(trace))
            for event in Reader(journal, summary.trace).events():
                summary.take(event)
            it, tasks = figures(content(trace), content(journal).encode()), summary.tasks
            self.assertEqual((it.pauses, it.paused, it.longest, it.waits), (
                sum(task.pauses for task in tasks), sum(task.paused for task in tasks), max((task.longest_pause for task in tasks), default=0),
                sum(task.checks[Decision.WAIT] for task in tasks)), journal)
            self.assertEqual((it.pages, it.latest, it.ending, it.hard), (
                summary.totals.done, summary.latest, summary.ending.value, summary.domains[0].greatest_hard), journal)

    def test_what_is_no_journal(self) -> None:
        text = content(os.path.join(EXAMPLES, "fold.journal"))
        for other in ("", text[:-5], text.replace("timer\n", "", 1), text.replace("\nstep 1 ", "\nstep 2 ")):
            with self.assertRaises(ValueError):
                figures(content(FOLD), other.encode())

    def test_the_values_that_a_trace_may_have_stand_together(self) -> None:
        for name in ("cpus", "tasks", "cap", "avail", "device-0", "expire-0", "dirty_ratio", "dirty_bytes"):
            reads = []
            for value in (0, 1, 2, 3, 64, 65, 100, 101, 256, 257, 1024, 2000, 100000, 100001, 2**20, 2**20 + 1, 2**40, 2**48, 2**49):
                if name == "tasks" and value > 257:
                    break
                try:
                    read("trace", parameter(name).changed(content(FOLD), value))
                    reads.append(True)
                except Fault:
                    reads.append(False)
            changes = sum(one != other for one, other in zip(reads, reads[1:]))
            self.assertLessEqual(changes, 2 - reads[0], name)
            self.assertIn(True, reads)

    def test_a_line_that_is_no_step(self) -> None:
        with self.assertRaises(ValueError):
            text = b"step 1 0 dirty 1 9\nstep 2 0 dirty 1\nstep 3 0 dirty 1 9\n"
            sums(text, 0, len(text))

    def test_a_run_over_threads_has_no_steps(self) -> None:
        text = content(os.path.join(EXAMPLES, "two-pages.journal")).encode()
        first, end = steps_of(text)
        lines = (text[:first] + text[end:]).replace(b"steps\n", b"")
        text = lines.replace(b"limits 0 1 ", b"limits 0 147 ").replace(b"batch 0 2 1 2", b"batch 0 2 317 318")
        it = measured("run", content(os.path.join(EXAMPLES, "two-pages.trace")), text)
        self.assertEqual((it.pages, it.ticks, it.greatest, it.bound, it.distance), (2, 172, 0, 21067, 21067))


class Tables(WithDirectory):
    def table(self) -> Table:
        lines = [{"trace": "a", "cap": cap, "tasks": tasks, "repeat": repeat, "waits": waits}
                 for cap, tasks, repeat, waits in (("1", "2", "0", "5"), ("1", "2", "1", "9"), ("1", "2", "2", "6"), ("4", "2", "0", "1"))]
        return Table(["cap", "tasks"], lines)

    def test_median_and_spread(self) -> None:
        found = spreads(self.table(), "a", "waits")
        self.assertEqual(found, {(1, 2): Spread(5, 6, 9), (4, 2): Spread(1, 1, 1)})
        self.assertEqual(found[1, 2].width, 4)
        for column in ("speed", "trace"):
            with self.assertRaisesRegex(OtherWords, "column"):
                spreads(self.table(), "a", column)

    def test_a_variable_that_is_fixed(self) -> None:
        table = at(self.table(), {"cap": 1})
        self.assertEqual((table.variables, len(table.lines)), (["tasks"], 3))
        for fixed in ({"cap": 9}, {"speed": 1}):
            with self.assertRaises(OtherWords):
                at(self.table(), fixed)
        self.assertEqual(fixed_of(["device-0=5"]), {"device_0": 5})
        with self.assertRaises(OtherWords):
            fixed_of(["cap"])

    def test_what_is_no_table(self) -> None:
        with self.assertRaises(OtherWords):
            read_table(self.file("table.csv", "cap,pauses\n1,2\n"))
        with self.assertRaises(Error):
            read_table(os.path.join(self.directory, "none"))

    @unittest.skipUnless(picture.is_there(), "matplotlib isn't there: the pictures are left out")
    def test_pictures(self) -> None:
        rows = ["run,trace,cap,tasks,repeat,waits,pages"] + [
            f"{run},{'ab'[run % 2]},{run // 8},{run // 4 % 2 + 1},{run // 2 % 2},{run * run % 7},{run}" for run in range(24)]
        table = self.file("runs.csv", "\n".join(rows) + "\n")
        for more, wanted in ((["--show", "waits,pages"], ["runs-a.png", "runs-b.png"]),
                             (["--show", "waits", "--at", "tasks=2"], ["runs.png"]),
                             (["--show", "pages", "--at", "cap=1", "--format", "svg", "--name", "n"], ["n.svg"])):
            status, out, err = printed("plot-study", table, os.path.join(self.directory, "out"), *more)
            self.assertEqual((status, [os.path.basename(path) for path in out.split()], err), (0, wanted, ""))
        self.assertEqual(printed("plot-study", table, self.directory, "--at", "cap=1", "--at", "tasks=1")[0], 1)

    def test_without_matplotlib(self) -> None:
        with mock.patch("journals.picture.is_there", return_value=False):
            self.assertEqual(printed("plot-study", "none", self.directory)[0], 5)


@HAS_TOML
class Studies(WithDirectory):
    def setUp(self) -> None:
        super().setUp()
        self.out = os.path.join(self.directory, "out")
        self.log = os.path.join(self.directory, "log")

    def program(self, more: str = "") -> str:
        """A program that prints the journal of fold.trace for any trace, and logs the caps."""
        text = PROGRAM.format(log=self.log, more=more, journal=os.path.join(EXAMPLES, "fold.journal"))
        path = self.file("program", text)
        os.chmod(path, os.stat(path).st_mode | stat.S_IXUSR)
        return path

    def study(self, caps: str) -> str:
        """A study of fold.trace over caps."""
        return self.file("study.toml", f'traces = ["{FOLD}"]\n[over]\ncap = {caps}\n')

    def rows(self) -> list[dict[str, str]]:
        """The table that was made."""
        with open(os.path.join(self.out, "runs.csv"), encoding="ascii", newline="") as file:
            return list(csv.DictReader(file))

    def logged(self, word: str) -> collections.Counter[str]:
        """How often each cap was begun, or ended."""
        lines = content(self.log).splitlines() if os.path.exists(self.log) else []
        return collections.Counter(line.split()[1] for line in lines if line.startswith(word))

    def test_a_table_and_what_is_kept(self) -> None:
        study = self.file("study.toml", STUDY.format(FOLD))
        with mock.patch.object(engine, "gnu_parallel", lambda: None):
            status, out, err = printed("study", study, self.out, "--binary", self.program())
        self.assertEqual((status, err, len(out.split())), (0, ONE_BY_ONE, 25))
        self.assertEqual([(row["cap"], row["device_0"], row["repeat"]) for row in self.rows()[:5]], [
            ("1", "5", "0"), ("1", "5", "1"), ("1", "25600", "0"), ("1", "25600", "1"), ("3", "5", "0")])
        self.assertEqual(content(os.path.join(self.out, "run-4.journal")), content(os.path.join(EXAMPLES, "fold.journal")))
        self.assertIn("\ncap 3\n", content(os.path.join(self.out, "run-4.trace")))
        self.assertEqual(printed("study", study, self.out, "--binary", self.program())[0], 1, "nothing is written over")

    def test_the_jobs_as_a_list(self) -> None:
        words = ("study", self.study("[1, 2, 4]"), self.out, "--binary", self.program(), "--runs-a-job", "2")
        status, out, _ = printed(*words, "--print-jobs")
        self.assertEqual((status, len(out.splitlines()), os.path.exists(self.log)), (0, 2, False))
        for line in out.splitlines():
            subprocess.run(["/bin/sh", "-c", line], check=True)
        self.assertEqual(printed(*words)[0], 1, "the jobs of another call aren't begun anew")
        self.assertEqual(printed(*words, "--resume")[0], 0)
        self.assertEqual([row["cap"] for row in self.rows()], ["1", "2", "4"])
        self.assertEqual(self.logged("begun"), {"1": 1, "2": 1, "4": 1})
        rules = printed(*words, "--resume", "--force", "--print-makefile")[1]
        self.assertTrue(rules.startswith(".PHONY: all\nall: "))

    def test_a_job_that_fails_is_tried_again_and_named(self) -> None:
        more = f'[ "$cap" != 2 ] || [ -e {self.directory}/well ] || {{ echo no luck >&2; exit 9; }}'
        words = ("study", self.study("[1, 2, 4, 8]"), self.out, "--binary", self.program(more), "--runs-a-job", "2", "--retries", "2")
        status, out, err = printed(*words)
        self.assertEqual((status, out, self.logged("begun")), (6, "", {"1": 1, "2": 2, "4": 1, "8": 1}))
        self.assertRegex(err, r"wb: job 1 \(runs 0 to 1\) failed, status 5: 1 of 2 runs have failed: run 1: fold with cap 2: "
                              r".* ended with 9: no luck\n")
        self.file("well", "")
        self.assertEqual(printed(*words, "--resume")[0], 0)
        self.assertEqual((len(self.rows()), self.logged("ended")), (4, {"1": 1, "2": 1, "4": 1, "8": 1}))

    def test_what_is_refused(self) -> None:
        status, out, err = printed("study", self.study("[1, 2000]"), self.out, "--binary", self.program())
        self.assertEqual((status, out, os.path.exists(self.out)), (2, "", False))
        self.assertIn("fold with cap 2000: line 2", err)
        self.assertEqual(printed("study", self.study("[1]"), self.out, "--binary", self.program(), "--resume")[0], 3)
        self.assertEqual(printed("study", self.study("[1]"), self.out, "--binary", "/bin/true", "--python")[0], 1)

    def test_the_same_goes_on_and_nothing_else(self) -> None:
        printed("study", self.study("[1]"), self.out, "--binary", self.program(), "--print-jobs")
        self.assertEqual(printed("study", self.study("[2]"), self.out, "--binary", self.program(), "--resume")[0], 1)

    def killed(self, who: str) -> collections.Counter[str]:
        """Kills a study when two jobs are each in mid-run, and lets it go on. How often each run was begun."""
        wait = f'while [ $cap -gt 3 ] && [ ! -e {self.directory}/go ]; do sleep 0.05; done'
        words = [sys.executable, os.path.join(TOOLS, "wb"), "study", self.study('["1..9..1"]'), self.out,
                 "--binary", self.program(wait), "--runs-a-job", "5", "--jobs", "2"]
        process = subprocess.Popen(words, start_new_session=True, stdout=subprocess.DEVNULL, stderr=subprocess.DEVNULL)
        end = time.monotonic() + 300
        while not {"4", "6"} <= set(self.logged("begun")) and time.monotonic() < end:
            time.sleep(0.05)
        for number in [*(below(process.pid) if who == "all" else []), process.pid]:
            (os.killpg if who == "group" else os.kill)(number, signal.SIGKILL)
        process.wait()
        self.assertEqual(set(self.logged("begun")), {"1", "2", "3", "4", "6"})
        self.file("go", "")
        subprocess.run([*words, "--resume"], stdout=subprocess.DEVNULL, stderr=subprocess.DEVNULL, check=True)
        self.assertEqual([row["cap"] for row in self.rows()], [str(cap) for cap in range(1, 10)])
        return self.logged("begun")

    @unittest.skipUnless(engine.gnu_parallel(), NO_PARALLEL)
    def test_a_study_that_is_killed_goes_on(self) -> None:
        once = collections.Counter(str(cap) for cap in range(1, 10))
        for who, twice in (("process", ()), ("group", ()), ("all", ("4", "6"))):
            with self.subTest(who):
                self.assertEqual(self.killed(who), once + collections.Counter(twice), "what had ended isn't made again")
            subprocess.run(["rm", "-rf", self.out, self.log, os.path.join(self.directory, "go")], check=True)


if __name__ == "__main__":
    unittest.main()
