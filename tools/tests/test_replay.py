"""The independent program of a replay agrees with the journals of examples/."""
from __future__ import annotations

import glob
import hashlib
import os
import subprocess
import sys
import unittest

from program.errors import Fault
from replay import Machine
from wrong.inputs import FULL

from .given import EXAMPLES, TOOLS


def content(path: str) -> str:
    """A file of examples/."""
    with open(path, encoding="ascii") as file:
        return file.read()


def journal_of(trace: str) -> str:
    """The journal of a trace of examples/."""
    machine = Machine(content(trace))
    machine.run()
    return "".join(line + "\n" for line in machine.journal())


class Replay(unittest.TestCase):
    def test_each_example_has_its_journal(self) -> None:
        journals = sorted(glob.glob(os.path.join(EXAMPLES, "*.journal")))
        self.assertGreater(len(journals), 20)
        for path in journals:
            with self.subTest(os.path.basename(path)):
                self.assertEqual(journal_of(path[: -len("journal")] + "trace"), content(path))

    def test_each_long_example_has_the_sum_of_its_journal(self) -> None:
        sums = sorted(glob.glob(os.path.join(EXAMPLES, "*.sum")))
        self.assertGreater(len(sums), len(FULL) + 1)
        for path in sums:
            if os.path.basename(path)[: -len("sum")] + "trace" in FULL:
                continue  # tools/wrong-rules compares it
            with self.subTest(os.path.basename(path)):
                journal = journal_of(path[: -len("sum")] + "trace").encode("latin-1")
                self.assertEqual(hashlib.sha256(journal).hexdigest() + "\n", content(path))

    def test_a_text_that_is_refused(self) -> None:
        with self.assertRaises(Fault) as caught:
            Machine("cpus 1\navail 0 1\ndevice 0 1 0 100\n")
        self.assertEqual(caught.exception.verdict, "missing flusher")


MACHINE = "cpus 1\navail 0 100000\ndevice 0 25600 0 100\ncontext 0 0 0\ninode 0 0 {}\ntask 0 0\nflusher 0 0 0\n"


def parts_of(trace: str) -> tuple[list[str], list[str]]:
    """The entries of a replay, and its steps, each by its kind."""
    machine = Machine(trace)
    machine.run()
    lines = list(machine.journal())
    steps = [line.split(" ")[3] for line in lines if line.startswith("step ")]
    return [line for line in lines if not line.startswith("step")], steps


class FurtherLines(unittest.TestCase):
    def test_a_chunk_of_a_page(self) -> None:
        entries, steps = parts_of(MACHINE.format(2) + "chunk 0 1\nwrite 0 0 0 2\n")
        self.assertEqual(entries[5:13], ["claim 0 0", "batch 0 1 1 2", "done 0 0", "share 0 0 1", "claim 0 1", "batch 0 1 2 3", "done 0 1",
                                         "share 0 0 1"])
        self.assertEqual(len(steps), 26)

    def test_a_scan_goes_on(self) -> None:
        chunk = MACHINE.format(2) + "chunk 0 1\nwrite 0 0 0 2\n"
        (before, steps), (after, more) = parts_of(chunk), parts_of(chunk + "cyclic 0\n")
        self.assertEqual((before, len(more)), (after, 29))
        self.assertEqual({kind: more.count(kind) - steps.count(kind) for kind in ("mark", "unmark", "look")},
                         {"mark": 1, "unmark": 1, "look": 1})

    def test_looks_are_saved(self) -> None:
        chunk = MACHINE.format(5) + "chunk 0 2\nwrite 0 0 0 5\n"
        (before, steps), (after, more) = parts_of(chunk), parts_of(chunk + "cyclic 0\n")
        self.assertEqual(before, after)
        self.assertEqual([(len(it), it.count("look")) for it in (steps, more)], [(60, 11), (58, 9)])

    def test_a_first_estimate(self) -> None:
        entries, _ = parts_of(MACHINE.format(2) + "avail 150 50000\nrest 0 300\nwrite 0 0 0 1\nestimate 0 100 100 50\n")
        self.assertIn("est 0 1 95 100 50 100 0 0 201", entries)

    def test_a_pace(self) -> None:
        entries, _ = parts_of(MACHINE.format(7) + "write 0 0 0 5\nrest 0 3\nwrite 0 0 5 2\npace 0 2 50\n")
        self.assertEqual([line for line in entries if line.startswith("write ")], [f"write 0 {page} fresh" for page in range(7)])
        self.assertIn("batch 0 7 154 155", entries)


def run(*words: str, given: str = "") -> tuple[int, str, str]:
    """A run of the program: its status and what it writes."""
    done = subprocess.run([sys.executable, os.path.join(TOOLS, "replay.py"), *words], input=given, capture_output=True, text=True,
                          check=False)
    return done.returncode, done.stdout, done.stderr


class Program(unittest.TestCase):
    def test_its_help(self) -> None:
        status, said, _ = run("--help")
        self.assertEqual((status, said.splitlines()[0]), (0, "usage: tools/replay.py [--as-wbsim] [forecast EVERY] < TRACE"))

    def test_how_it_ends(self) -> None:
        self.assertEqual(run(), (2, "", "replay.py: standard input: missing cpus: no line says how many CPUs there are\n"))
        self.assertEqual(run(given="cpus\t1\n"), (
            2, "", "replay.py: standard input: line 1, column 5: bad line: tab where one space is wanted\n"))
        self.assertEqual(run(given="cpus 1\navail 0 100\n")[0], 0)
        self.assertEqual(run(given=f"{MACHINE.format(2)}cyclic 0\n")[0], 0)
        self.assertEqual(run("trace")[0], 1)

    def test_further_lines_as_the_program(self) -> None:
        for line in ("chunk 0 1", "cyclic 0", "estimate 0 1 1 1", "pace 0 1 1"):
            self.assertEqual(run("--as-wbsim", given=f"{MACHINE.format(2)}{line}\n")[0], 0)
        for line in ("cyclic 1", "pace 1 1 1"):
            self.assertEqual(run("--as-wbsim", given=f"{MACHINE.format(2)}{line}\n"), (2, "", "wbsim: line 8: unknown name\n"))


if __name__ == "__main__":
    unittest.main()
