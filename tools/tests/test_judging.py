"""Judged runs: the traces, what a judge says, and what all verdicts come to."""
from __future__ import annotations

import contextlib
import importlib.machinery
import importlib.util
import io
import os
import stat
import unittest
from unittest import mock

from journals.trace_reader import trace_of as read_trace
from journals.whole_text import WholeText
from judging.making import maker, verdict, wanted_status
from judging.telling import tell
from judging.traces import trace_of

from .given import EXAMPLES, TOOLS, WithDirectory

JUDGE = """#!/bin/sh
echo judged >> {log}
if grep -q '^cpus 4'; then echo broken clause 3 line 5; else echo lawful; fi
"""


def loaded() -> object:
    """The script as a module."""
    loader = importlib.machinery.SourceFileLoader("judge_runs", os.path.join(TOOLS, "judge-runs"))
    module = importlib.util.module_from_spec(importlib.util.spec_from_loader("judge_runs", loader))
    loader.exec_module(module)
    return module


class Traces(unittest.TestCase):
    def test_each_is_a_trace_and_made_of_its_number(self) -> None:
        for number in range(40):
            for all_age in (False, True):
                text = trace_of(number, all_age)
                trace = read_trace(WholeText(str(number), text.encode()))
                self.assertEqual(text, trace_of(number, all_age))
                self.assertTrue(1 <= trace.cpus <= 4 and 2 <= len(trace.tasks) <= 6)
                self.assertTrue(not all_age or text.count("\nexpire ") == len(trace.contexts))


class Judged(WithDirectory):
    def setUp(self) -> None:
        super().setUp()
        self.judge = self.script("judge", JUDGE.format(log=os.path.join(self.directory, "log")))
        self.binary = self.script("binary", f"#!/bin/sh\n[ $1 = run ] || exit 1\nexec cat {EXAMPLES}/age-pages.journal\n")

    def script(self, name: str, text: str) -> str:
        """A script of this directory."""
        path = self.file(name, text)
        os.chmod(path, os.stat(path).st_mode | stat.S_IXUSR)
        return path

    def run_script(self, *words: str) -> tuple[int, str, str]:
        """Status, output and standard error of judge-runs."""
        out, err = io.StringIO(), io.StringIO()
        module = loaded()
        with contextlib.redirect_stdout(out), contextlib.redirect_stderr(err), mock.patch.object(module, "KEPT", self.directory):
            try:
                status = module.main(list(words))
            except SystemExit as end:
                status = int(end.code or 0)
        return status, out.getvalue(), err.getvalue()

    def test_a_row(self) -> None:
        spec = {"judge": [self.judge], "failing": 0, "ageing": 1, "failing binary": ""}
        make = maker(spec, self.directory, [self.binary])
        rows = {row["verdict"]: row for row in map(make, range(6))}
        self.assertEqual(rows["lawful"]["tells"], ["notice", "age"])
        self.assertNotIn("journal", rows["lawful"])
        self.assertTrue(rows["broken"]["trace"].startswith("cpus 4\n") and rows["broken"]["journal"].endswith("end done\n"))
        self.assertEqual((make(0)["all age"], make(1)["all age"]), (True, False))

    def test_what_a_judge_may_do(self) -> None:
        self.assertEqual(verdict(["/bin/true"], "", ""), "silent")
        self.assertEqual(verdict(["/bin/echo", "unsettled", "task", "1"], "", ""), "unsettled")
        self.assertEqual([wanted_status(failing, "end faulted\n") for failing in (True, False)], [0, 5])

    def test_what_all_come_to(self) -> None:
        work = os.path.join(self.directory, "work")
        words = (self.judge, "12", "0", "3", "--binary", self.binary, "--work", work, "--runs-a-job", "4")
        status, out, err = self.run_script(*words)
        kinds = [trace_of(number, number < 3).startswith("cpus 4\n") for number in range(12)]
        self.assertEqual(status, 1, err)
        self.assertEqual(out.splitlines()[-1], f"{12 - sum(kinds)} lawful, 0 unsettled, {sum(kinds)} broken, 0 not judged")
        self.assertIn(f"where all contexts age: {3 - sum(kinds[:3])} lawful, 0 unsettled, {sum(kinds[:3])} broken, 0 not judged\n", out)
        kept = {int(name[:-6]) for name in os.listdir(self.directory) if name.endswith(".trace")}
        self.assertEqual(kept, {number for number, is_broken in enumerate(kinds) if is_broken})
        self.assertEqual(self.run_script(*words)[0], 70, "the jobs of another call aren't begun anew")
        self.assertEqual(self.run_script(*words, "--resume")[:2], (1, out))
        with open(os.path.join(self.directory, "log"), encoding="ascii") as log:
            self.assertEqual(log.read().count("judged"), 12, "nothing is judged twice")

    def test_another_status(self) -> None:
        row = {"run": 3, "verdict": "lawful", "status": 4, "wanted": 0, "all age": False, "tells": []}
        with contextlib.redirect_stdout(io.StringIO()) as out:
            self.assertFalse(tell([row], self.directory))
            self.assertTrue(tell([{**row, "status": 0}], self.directory))
        self.assertTrue(out.getvalue().startswith("3: status 4\n"))

    def test_other_words(self) -> None:
        for words in ([], [self.judge, "x"], [self.judge, "0"], [self.judge, "--resume"]):
            self.assertEqual(self.run_script(*words)[0], 64, words)
        status, _, err = self.run_script(self.judge, "5", "1", "--binary", self.binary, "--failing-binary", "none")
        self.assertEqual((status, err.endswith("none: rt ci builds it\n")), (70, True))


if __name__ == "__main__":
    unittest.main()
