"""A parameter of a trace over values, and the interleaving that comes nearest to a bound."""
from __future__ import annotations

import csv
import os
import random
import sys
import unittest
from unittest import mock

from journals import picture
from journals.trace_reader import trace_of
from journals.whole_text import WholeText
from jobs import origin
from program.errors import NotThere, OtherWords
from search.climbing import orders_of, shorten, start, without_orders
from search.editing import parameter
from search.orders import changed, joined, lines
from search.values import values_of

from .given import EXAMPLES, WithDirectory
from .test_kernel import printed

TWO_CPUS = os.path.join(EXAMPLES, "stopped.trace")
FOLD = os.path.join(EXAMPLES, "fold.trace")
ONE_BY_ONE = "wb: GNU parallel isn't there (Debian's package is parallel): one job after another\n"


def content(path: str) -> str:
    """A file."""
    with open(path, encoding="ascii") as file:
        return file.read()


class Parameters(unittest.TestCase):
    def changed(self, name: str, value: int) -> str:
        """The trace of two CPUs with another value, which is lawful."""
        text = parameter(name).changed(content(TWO_CPUS), value)
        trace_of(WholeText("text", text.encode()))
        return text

    def test_lines_that_stand_once(self) -> None:
        self.assertIn("\ncap 7\n", self.changed("cap", 7))
        self.assertIn("\nset dirty_bytes 4096000\n", self.changed("dirty_bytes", 4096000))
        self.assertTrue(self.changed("dirty_ratio", 30).startswith("cpus 2\nset dirty_ratio 30\n"))

    def test_a_rate_and_the_memory(self) -> None:
        self.assertIn("\ndevice 0 5 100 100\n", self.changed("device-0", 5))
        self.assertIn("\navail 0 500\n", self.changed("avail", 500))
        self.assertIn("\ncontext 0 0 0\nexpire 0 7\ninode", self.changed("expire-0", 7))
        self.assertEqual(parameter("expire-1").changed("context 1 0 0\ntick 1\nexpire 1 5\n", 7), "context 1 0 0\nexpire 1 7\ntick 1\n")
        self.assertIn("avail 0 10\navail 5 1000\n", parameter("avail").changed("avail 0 20\navail 5 2000\n", 10))

    def test_cpus(self) -> None:
        text = self.changed("cpus", 1)
        self.assertIn("task 0 0\ntask 1 0\nflusher 0 0 0\n", text)
        self.assertNotIn("order", text)

    def test_tasks(self) -> None:
        fewer = trace_of(WholeText("text", self.changed("tasks", 1).encode()))
        self.assertEqual((len(fewer.tasks), len(fewer.actions)), (1, 1))
        more = trace_of(WholeText("text", self.changed("tasks", 5).encode()))
        self.assertEqual((len(more.tasks), len(more.inodes), more.pages), (5, 5, 3 * 107 + 2 * 75))
        self.assertEqual([more.inodes[action.inode].pages for task in range(5) for action in more.actions[task]], [107, 75, 107, 75, 107])

    def test_paces_of_tasks(self) -> None:
        paced = "task 0 0\ntask 1 0\npace 1 2 3\ninode 0 0 1\nwrite 1 0 0 1\n"
        self.assertEqual(parameter("tasks").changed(paced, 1), "task 0 0\ninode 0 0 1\n")
        self.assertIn("\npace 3 2 3\n", parameter("tasks").changed(paced, 4))

    def test_names_that_are_none(self) -> None:
        for name in ("speed", "device-01", "device-"):
            with self.assertRaisesRegex(OtherWords, "no parameter is named"):
                parameter(name)
        with self.assertRaisesRegex(OtherWords, "no device 3"):
            parameter("device-3").changed(content(TWO_CPUS), 5)

    def test_values(self) -> None:
        self.assertEqual(values_of(["5", "1..7..3", "4"]), [1, 4, 5, 7])
        for wrong in ("a", "1..2", "1..5..0", "-1", "1..9999..1"):
            with self.assertRaises(OtherWords):
                values_of([wrong])


class Sweeps(WithDirectory):
    def swept(self, *words: str) -> tuple[int, str, str]:
        return printed("sweep", FOLD, os.path.join(self.directory, "out"), "--python", *words)

    def test_a_table(self) -> None:
        status, out, err = self.swept("--over", "cap", "--values", "1,8", "--no-picture")
        self.assertEqual((status, err.replace(ONE_BY_ONE, "")), (0, ""))
        self.assertEqual(os.listdir(os.path.join(self.directory, "out")), ["sweep.csv"], "the jobs are gone")
        with open(out.strip(), encoding="ascii") as file:
            rows = list(csv.DictReader(file))
        self.assertEqual([(row["cap"], row["pages"], row["ending"]) for row in rows], [("1", "8", "done"), ("8", "8", "done")])
        self.assertEqual([int(row["bound"]) - int(row["greatest_count"]) for row in rows], [int(row["least_distance"]) for row in rows])

    @unittest.skipUnless(picture.is_there(), "matplotlib isn't there: the pictures are left out")
    def test_a_picture(self) -> None:
        status, out, _ = self.swept("--over", "device-0", "--values", "1,1000", "--jobs", "2")
        self.assertEqual((status, [os.path.basename(path) for path in out.split()]), (0, ["sweep.csv", "sweep.png"]))

    def test_without_matplotlib(self) -> None:
        with mock.patch("journals.picture.is_there", return_value=False):
            self.assertEqual(self.swept("--over", "cap", "--values", "1")[0], 5)

    def test_a_value_that_is_refused(self) -> None:
        status, out, err = self.swept("--over", "cap", "--values", "8,2000", "--no-picture")
        self.assertEqual((status, out), (2, ""))
        self.assertRegex(err, "with cap 2000: line 2.*: out of range")

    def test_each_row_says_what_made_it(self) -> None:
        _, out, _ = self.swept("--over", "cap", "--values", "8", "--no-picture")
        with open(out.strip(), encoding="ascii") as file:
            row = next(csv.DictReader(file))
        self.assertEqual((row["version"], row["sum"]), ("tools/replay.py", origin.sum_of_python()))

    def test_a_run_that_is_longer_than_a_replay_may_be(self) -> None:
        program = self.file("program", f"""#!/bin/sh
case $1 in
    replay) sed 's/^end done/end spent/' {FOLD.removesuffix("trace")}journal && exit 7 ;;
    forecast) exec {sys.executable} {origin.REPLAY} "$@" ;;
    *) exit 1 ;;
esac
""")
        os.chmod(program, 0o755)
        words = ("--binary", program, "--over", "cap", "--values", "1,8", "--no-picture")
        status, out, err = printed("sweep", FOLD, os.path.join(self.directory, "out"), *words)
        self.assertEqual((status, err.replace(ONE_BY_ONE, "")), (0, "wb: with cap 1, 8 a run has more steps than a replay may make: a forecast by "
                                                                    "intervals of 100 ticks tells it, which doesn't tell waits\n"))
        with open(out.strip(), encoding="ascii") as file:
            rows = list(csv.DictReader(file))
        self.assertEqual([(row["pages"], row["ending"], row["told_by"], row["waits"]) for row in rows], [("8", "done", "forecast", "")] * 2)
        _, out, _ = printed("sweep", FOLD, self.directory, "--python", *words[2:])
        with open(out.strip(), encoding="ascii") as file:
            replays = list(csv.DictReader(file))
        for name in ("pauses", "paused_ticks", "longest_pause_ticks", "pages", "greatest_count", "bound", "least_distance"):
            self.assertEqual([row[name] for row in rows], [row[name] for row in replays], name)
        self.assertEqual({row["told_by"] for row in replays}, {"replay"})

    def test_what_runs_it(self) -> None:
        self.assertEqual(origin.found("/bin/true").words, ["/bin/true"])
        self.assertEqual(origin.found(origin.PYTHON).words[0], sys.executable)
        with self.assertRaises(NotThere):
            origin.found(os.path.join(self.directory, "none"))

    def test_a_program_that_fails(self) -> None:
        done = printed("sweep", FOLD, self.directory, "--binary", "/bin/false", "--over", "cap", "--values", "1", "--no-picture")
        self.assertEqual((done[0], done[1]), (6, ""))
        self.assertRegex(done[2], r"job 1 \(run 0\) failed, status 5: 1 of 1 runs have failed: run 0: .* with cap 1: /bin/false ended with 1")


class Nearest(WithDirectory):
    def test_orders_and_their_lines(self) -> None:
        orders = orders_of("cpus 2\norder 0 5\norder timer 3\ntick 7\n", 2)
        self.assertEqual(orders, [(0, 5), (2, 3), (None, 7)])
        self.assertEqual(lines(orders, 2), ["order 0 5", "order timer 3", "tick 7"])
        self.assertEqual(joined([(0, 5), (0, 1), (1, 2)]), [(0, 6), (1, 2)])

    def test_changes_are_orders(self) -> None:
        chance, orders = random.Random(1), [(0, 5), (1, 3)]
        for _ in range(300):
            orders = changed(orders, 2, chance)
            self.assertTrue(all(many >= 1 and (who is None or 0 <= who <= 2) for who, many in orders))

    def test_the_score_is_that_of_the_journal(self) -> None:
        climb = start(content(TWO_CPUS), 2, 0)
        self.assertEqual((climb.score.distance, climb.score.step), (73, 879))
        self.assertEqual(start(without_orders(content(TWO_CPUS)), 2, 0).score.distance, 127)

    def test_what_isnt_needed_is_left_out(self) -> None:
        climb = start(content(TWO_CPUS) + "order 1 1\ntick 5\n", 2, 0)
        shorten(climb)
        self.assertEqual(climb.score.distance, 73)
        self.assertLess(len(climb.orders), 8)

    def test_the_word(self) -> None:
        status, out, err = printed("nearest", "--minutes", "0.002", "--seeds", "2", TWO_CPUS)
        self.assertEqual(status, 0)
        self.assertRegex(err, "seed 0: .* runs\nwb: seed 1: .* runs\n")
        self.assertIn("in the order of the rotation: 127 pages below the bound", err)
        self.assertLessEqual(start(out, 2, 0).score.distance, 73)

    def test_what_is_no_small_machine(self) -> None:
        self.assertEqual(printed("nearest", os.path.join(EXAMPLES, "realistic.trace"))[0], 1)
        self.assertEqual(printed("nearest", "--domain", "1", TWO_CPUS)[0], 1)
        self.assertEqual(printed("nearest", self.file("trace", "cpus 65\n"))[0], 2)

    def test_the_traces_of_the_examples(self) -> None:
        for name, distance, domain in (("nearest-one", 19, 0), ("nearest-contexts", 22, 0), ("nearest-cgroup", 68, 1)):
            text = content(os.path.join(EXAMPLES, f"{name}.trace"))
            self.assertEqual(start(text, trace_of(WholeText(name, text.encode())).cpus, domain).score.distance, distance)


if __name__ == "__main__":
    unittest.main()
