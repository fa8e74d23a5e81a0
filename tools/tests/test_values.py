"""Judged journals as values: the files of `wbt_judged` that need no folder are those that are made, and which cases of a folder are taken."""
from __future__ import annotations

import os
import unittest

from values import specs
from values.cases import Case, cases, chosen, chosen_ageing, chosen_strict, sharing
from values.changes import changed, changes
from values.journals import journal_value
from values.traces import trace_value

from .given import ROOT, WithDirectory

CRATE = os.path.join(ROOT, "crates", "wbt_judged")


def spec(name: str) -> str:
    """A file of the crate's specs."""
    with open(os.path.join(CRATE, "specs", f"{name}.antt"), encoding="utf-8") as file:
        return file.read()


def case(size: int, said: str, trace: str = "cpus 1", journal: str = "timer") -> Case:
    """A case of so many lines."""
    return Case(size, said, f"case_{size}", trace.split(", "), journal.split(", "))


class OfTheCrate(unittest.TestCase):
    def test_its_lines(self) -> None:
        self.assertEqual(specs.lines(), spec("Lines"))

    def test_its_changed_journals(self) -> None:
        made = changes()
        self.assertGreater(len(made), 60)
        self.assertEqual(specs.journals("Changed", made), spec("Changed"))
        for it in made:
            self.assertIn(f"  pub is_{it.name} : {specs.claim(it)}\n", spec("Judged"))


class OfTraces(unittest.TestCase):
    def test_what_further_lines_say(self) -> None:
        value = trace_value([
            "cpus 2", "avail 0 9", "device 0 5 0 100", "device 1 6 1 50", "device 2 7 0 100", "chunk 0 3", "strict 1", "cyclic 1", "cgroup 1 4 8",
            "context 0 0 0", "context 1 1 1", "context 2 2 0", "estimate 0 1 2 3", "expire 1 200", "inode 0 0 4", "inode 1 1 2", "task 0 1",
            "task 1 0", "pace 1 2 50", "flusher 0 0 1", "set dirty_bytes 4096", "write 0 1 0 2", "rest 1 7", "order 0 3"])
        for part in ("cpus = 2; cap = 1024; settings = settings 20 10 4096 0; avail = avail 0 9 ∷ []",
                     "devices = chunked_device 5 0 100 3 ∷ (record (strict_device 6 1 50) { cyclic = true }) ∷ device 7 0 100 ∷ []",
                     "cgroups = cgroup 4 8 ∷ []", "contexts = given_context 0 0 1 2 3 ∷ ageing_context 1 1 200 ∷ context 2 0 ∷ []",
                     "inodes = inode 0 0 4 ∷ inode 1 4 2 ∷ []",
                     "tasks = on_cpu 1 ∷ (record (on_cpu 0) { pace = Some (record { pages = 2; ticks = 50 }) }) ∷ []",
                     "flushers = flusher 0 1 ∷ []; actions = action.Write 0 1 0 2 ∷ action.Rest 1 7 ∷ []; order = []; halt = None"):
            self.assertIn(part, value)


class OfJournals(unittest.TestCase):
    def test_a_check_has_what_was_read_before_it(self) -> None:
        value = journal_value([
            "timer", "limits 0 1 9 4 9", "cpu 0", "write 0 3 already", "fold c1 2 -3", "read 0 1 9 4 9 2 -1 0 1 1", "read 1 1 8 4 8 2 7 0 1 1",
            "count 1 5 -2", "check 0 1 6 2 wait 8 0 3 4 7", "est 1 1 2 3 4 5 6 7 8", "cpu 1", "left 3 both", "end halted"])
        for part in ("timer = limits 0 1 9 4 9 ∷ []",
                     "entry.Write 0 3 false ∷ folded (counter.Context 1) 2 (negsuc 2) ∷ entry.Check 0 ∷ entry.Est 0 ∷ []",
                     "check 0 1 6 (read 0 1 9 4 9 2 (negsuc 0) 0 1 1) (Some (read 1 1 8 4 8 2 (pos 7) 0 1 1)) 5 (negsuc 1) 2 kind.Wait 8 0 3 4 7 ∷ []",
                     "estimate 1 1 2 3 4 5 6 7 8 ∷ []", "part ([]) ([]) ([])", "left = left 3 3 ∷ []", "ending = ending.Halted"):
            self.assertIn(part, value)


class Taken(WithDirectory):
    def test_the_smallest_of_each_point_in_turn(self) -> None:
        found = [case(1, "lawful"), case(2, "lawful"), case(3, "broken 4 7"), case(4, "broken 4 9"), case(90, "broken 5 1"), case(91, "lawful")]
        self.assertEqual([it.size for it in chosen(found, 9, 50)], [3, 90, 1, 4, 2])
        self.assertEqual([it.size for it in chosen(found, 2, 50)], [3, 90])

    def test_one_that_throttles_strictly_and_one_that_writes_for_age(self) -> None:
        found = [case(1, "lawful"), case(2, "lawful", "strict 0, context 0 0 0", "check 0 0 1 1 go 5 1 0 32 9"), case(3, "lawful", journal="age 0 0 1 1")]
        self.assertEqual([it.size for it in chosen_strict(found)], [1, 2])
        self.assertEqual([it.size for it in chosen_ageing(found)], [1, 3])

    def test_those_with_one_trace_name_it_by_the_first(self) -> None:
        found = sharing([case(1, "lawful"), case(2, "broken 4 7"), case(3, "lawful", "cpus 2"), case(4, "lawful", "cpus 2")])
        self.assertEqual([it.traced for it in found], ["case_1_trace", "case_1_trace", "case_3_trace", "case_3_trace"])
        self.assertIn("verdict_of case_1_trace (with_marks case_1_trace case_2) ≡ broken 4 7", specs.claim(found[1]))

    def test_the_cases_of_a_folder(self) -> None:
        for name, text, verdict in (
                ("b", "cpus 1\navail 0 9\njournal\ntimer\n", "lawful\n"), ("a-1", "cpus 1\njournal\ntimer\ncpu 0\n", "broken clause 3 line 47\n"),
                ("c", "cpus 1\njournal\nsteps\n", "lawful\n"), ("d", "cpus 1\njournal\n", ""), ("e", "cpus 1\njournal\n", "unsettled task 0\n")):
            self.file(f"{name}.in", text)
            self.file(f"{name}.out", verdict)
        self.assertEqual(cases(self.directory), [Case(4, "broken 3 47", "case_a_1", ["cpus 1"], ["timer", "cpu 0"]),
                                                 Case(4, "lawful", "case_b", ["cpus 1", "avail 0 9"], ["timer"])])

    def test_a_change(self) -> None:
        self.assertEqual(changed(["a", "b", "c", "b"], ["b"], ["x", "y"]), ["a", "x", "y", "c", "b"])
        self.assertEqual(changed(["a", "b", "c"], ["b", "c"], []), ["a"])
        with self.assertRaisesRegex(SystemExit, "no such lines: c / b"):
            changed(["a", "b", "c"], ["c", "b"], [])


if __name__ == "__main__":
    unittest.main()
