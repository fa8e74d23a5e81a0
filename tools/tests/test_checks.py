"""What is checked without proofs: which runs there are, what is said of one that differs, and of one that doesn't fit."""
from __future__ import annotations

import os
import re
import shutil
import subprocess
import sys

from .given import TOOLS, WithDirectory


class Checks(WithDirectory):
    def said(self, tool: str, *words: str) -> tuple[int, list[str]]:
        """A run of a tool: its status and its lines."""
        done = subprocess.run([os.path.join(TOOLS, tool), *words], capture_output=True, text=True, check=False)
        return done.returncode, done.stdout.splitlines()

    def program(self, commands: str) -> str:
        """A program of these commands."""
        path = self.file("program", f"#!/bin/sh\n{commands}\n")
        os.chmod(path, 0o755)
        return path

    def test_every_file_of_runs_is_a_subject(self) -> None:
        files = [name.removesuffix(".sh") for name in os.listdir(os.path.join(TOOLS, "runs")) if name.endswith(".sh")]
        self.assertEqual(sorted(" ".join(self.said("check-runs", "--subjects")[1]).split()), sorted(files))

    def test_a_program_that_prints_nothing(self) -> None:
        status, lines = self.said("check-runs", "--program", self.program("exit 0"), "halted")
        self.assertEqual((status, lines[-1]), (1, "0 passed, 1 failed, 0 skipped"))
        self.assertRegex(lines[0], "^differs: replay: a halted run: standard output is not that of ")

    def test_a_program_that_ends_otherwise(self) -> None:
        status, lines = self.said("check-runs", "--program", self.program("exit 9"), "halted")
        self.assertEqual((status, lines), (1, ["differs: replay: a halted run: status 9, and not 0", "0 passed, 1 failed, 0 skipped"]))

    def test_what_takes_an_unproved_program_too_long_is_named(self) -> None:
        status, lines = self.said("check-runs", "--unproved", self.program("exit 0"), "replays")
        self.assertEqual((status, lines[-1]), (0, "0 passed, 0 failed, 2 skipped"))
        self.assertRegex(lines[0], r"^skipped: replay: realistic.trace: it takes the unproved program some \d+ seconds$")
        self.assertEqual(self.said("check-runs", "--program", self.program("exit 0"), "replays")[1][-1], "0 passed, 2 failed, 0 skipped")

    def test_there_is_no_program(self) -> None:
        self.assertEqual(self.said("check-runs", "--program", os.path.join(self.directory, "none"), "words"), (1, ["0 passed, 1 failed, 0 skipped"]))

    def test_words_that_are_refused(self) -> None:
        for tool, *words in (("check", "--all"), ("check", "--jobs"), ("check", "--jobs", "0"), ("check", "--jobs", "x"), ("check-runs", "--all")):
            self.assertEqual(self.said(tool, *words), (2, []), words)
        self.assertEqual(self.said("check-runs", "--program", self.program("exit 0"), "nothing")[0], 1)


class Tests(WithDirectory):
    """`tools/check-tools` over tests of its own."""

    def setUp(self) -> None:
        super().setUp()
        os.makedirs(os.path.join(self.directory, "tools", "tests"))
        shutil.copy(os.path.join(TOOLS, "check-tools"), os.path.join(self.directory, "tools"))
        self.file("tools/tests/__init__.py", "")

    def write(self, name: str, *bodies: str, heads: str = "") -> None:
        """A file of tests, each of which is one statement."""
        given = "".join(f"    def test_{at}(self):\n        {body}\n" for at, body in enumerate(bodies))
        self.file(f"tools/tests/test_{name}.py", f"import os, unittest\n{heads}\nclass C(unittest.TestCase):\n{given}")

    def check(self, *words: str) -> tuple[int, list[str], str]:
        """A run of it: its status, its lines, and what it says meanwhile."""
        done = subprocess.run([sys.executable, os.path.join(self.directory, "tools", "check-tools"), *words],
                              capture_output=True, text=True, check=False)
        return done.returncode, done.stdout.splitlines(), done.stderr

    def test_all_tests_of_all_files_run(self) -> None:
        for name, tests in (("a", 1), ("b", 3), ("wrong", 2)):
            self.write(name, *["pass"] * tests)
        self.write("c", "self.skipTest('no c')", "self.assertTrue(True)")
        for words in ((), ("--jobs", "1"), ("--jobs", "1000")):
            self.assertEqual(self.check(*words), (0, ["skipped: tests.test_c.C.test_0: no c", "7 passed, 0 failed, 1 skipped"], ""), words)

    def test_each_that_fails_is_named(self) -> None:
        self.write("a", "self.fail('a fails')", "pass")
        self.write("b", "pass", "[][1]")
        status, lines, _ = self.check()
        self.assertEqual((status, lines[-1]), (1, "2 passed, 2 failed, 0 skipped"))
        self.assertEqual([line for line in lines if line.startswith("failed: ")], [
            "failed: test_0 (tests.test_a.C.test_0)", "failed: test_1 (tests.test_b.C.test_1)"])
        self.assertIn("AssertionError: a fails", lines)

    def test_one_that_was_to_fail(self) -> None:
        self.write("a", "pass")
        self.file("tools/tests/test_b.py", "import unittest\nclass C(unittest.TestCase):\n"
                  "    @unittest.expectedFailure\n    def test_0(self):\n        pass\n")
        status, lines, _ = self.check()
        self.assertEqual((status, lines), (1, ["failed: test_0 (tests.test_b.C.test_0): it was to fail", "1 passed, 1 failed, 0 skipped"]))

    def test_a_file_that_is_no_python(self) -> None:
        self.write("a", "pass")
        self.file("tools/tests/test_b.py", "import")
        status, lines, _ = self.check()
        self.assertEqual((status, lines[-1]), (1, "1 passed, 1 failed, 0 skipped"))
        self.assertRegex(lines[0], r"^failed: tests\.test_b ")

    def test_a_test_that_ends_its_process(self) -> None:
        self.write("a", "pass", "os._exit(0)")
        status, lines, _ = self.check("--jobs", "1")
        self.assertEqual((status, lines[-1]), (1, "0 passed, 2 failed, 0 skipped"))
        for line, name in zip(lines, ("test_0", "test_1")):
            self.assertTrue(line.startswith(f"failed: tests.test_a.C.{name}: its process has ended"), line)

    def test_tests_that_were_left_out(self) -> None:
        self.write("a", "pass", heads="unittest.TestCase.run = lambda self, result=None: result")
        self.assertEqual(self.check()[:2], (1, ["failed: of 1 tests 0 ran", "0 passed, 1 failed, 0 skipped"]))

    def test_no_tests(self) -> None:
        self.assertEqual(self.check()[:2], (1, ["0 passed, 0 failed, 0 skipped"]))

    def test_all_are_told(self) -> None:
        self.write("a", "pass")
        self.assertRegex(self.check("-v")[2], r"test_0 \(.*\) \.\.\. ok\n")

    def test_files_that_begin_first_are_there(self) -> None:
        with open(os.path.join(TOOLS, "check-tools"), encoding="utf-8") as file:
            names = re.findall(r'"(test_\w+)"', file.read().partition("LONGEST = (")[2].partition(")")[0])
        self.assertGreater(len(names), 9)
        for name in names:
            self.assertTrue(os.path.exists(os.path.join(TOOLS, "tests", f"{name}.py")), name)


class Sums(WithDirectory):
    """`tools/check` over other tools in its place, which say what they are given."""

    def setUp(self) -> None:
        super().setUp()
        for folder in ("tools", "examples", "bin", "kit"):
            os.mkdir(os.path.join(self.directory, folder))
        shutil.copy(os.path.join(TOOLS, "check"), os.path.join(self.directory, "tools"))
        self.file("examples/empty.trace", "")
        self.command("bin/python3", "exit 0")
        self.command("bin/cc", "exit 0")
        self.command("kit/rt", "exit 0")
        self.command("wbsim", "echo 'wbsim: unproved' >&2")
        self.command("tools/check-runs", '[ "$1" != --subjects ] || { echo one two; exit; }\necho "skipped: $*: x"\necho "1 passed, 0 failed, 1 skipped"')
        self.command("tools/check-layout", "echo '2 passed, 0 failed'")
        self.command("tools/check-tools", "echo \"with $*\"; echo '3 passed, 0 failed, 0 skipped'")
        self.command("tools/check-documents", "echo '4 passed, 0 failed'")
        self.command("tools/check-c", "echo '6 passed, 0 failed, 0 skipped'")
        self.command("tools/check-page", "echo '7 passed, 0 failed'")
        self.command("tools/wrong-rules", "echo noticed: a; echo \"with $*\"; echo '5 passed, 0 failed, 0 skipped'")

    def command(self, name: str, commands: str) -> None:
        """A command of this name."""
        os.chmod(self.file(name, f"#!/bin/sh\n{commands}\n"), 0o755)

    def check(self, *words: str, folders: tuple[str, ...] = ("bin", "kit")) -> tuple[int, list[str], str]:
        """A run of it: its status, its lines, and what it says meanwhile."""
        path = ":".join([*(os.path.join(self.directory, it) for it in folders), "/usr/bin", "/bin"])
        done = subprocess.run(
            [os.path.join(self.directory, "tools", "check"), "--jobs", "1", *words], capture_output=True, text=True, check=False,
            env={"PATH": path})
        return done.returncode, done.stdout.splitlines(), done.stderr

    def test_all_is_well(self) -> None:
        status, lines, said = self.check()
        self.assertEqual((status, lines), (0, [
            "tools: with --jobs 1", "runs:one: skipped: --unproved ../out/wbsim_unproved one: x",
            "runs:two: skipped: --unproved ../out/wbsim_unproved two: x",
            "wrong-rules: with --first --quick --jobs 1", "29 passed, 0 failed, 2 skipped"]))
        self.assertRegex(said, r"check: runs:two: 1 passed, 0 failed, 1 skipped \(\d+ s, and \d+ s of processors\)\n")
        self.assertRegex(said, r"check: \d+ s, and \d+ s of processors\n$")

    def test_with_the_proved_program_nothing_is_too_slow(self) -> None:
        self.command("wbsim", "exit 70")
        self.assertEqual(self.check("--proved")[1], [
            "tools: with --jobs 1", "runs:one: skipped: one: x", "runs:two: skipped: two: x", "wrong-rules: with --first --jobs 1",
            "29 passed, 0 failed, 2 skipped"])

    def test_what_fails_is_told_and_counted(self) -> None:
        self.command("tools/check-layout", "echo 'not laid out: a'; echo '1 passed, 2 failed'; exit 1")
        self.command("tools/check-tools", "echo '3 passed, 0 failed, 0 skipped'; exit 9")
        self.command("tools/check-documents", "echo it ends early")
        status, lines, _ = self.check()
        self.assertEqual((status, lines[-1]), (1, "21 passed, 4 failed, 2 skipped"))
        for line in ("layout: not laid out: a", "tools: failed: its status is 9", "documents: it ends early", "documents: failed: its status is 0"):
            self.assertIn(line, lines)

    def test_what_needs_a_tool_that_is_not_there(self) -> None:
        if shutil.which("rt", path="/usr/bin:/bin"):
            self.skipTest("rt is in /usr/bin: it can't be taken away")
        status, lines, _ = self.check(folders=("bin",))
        self.assertEqual((status, lines[0], lines[-1]), (0, "layout: skipped: rt isn't there", "27 passed, 0 failed, 3 skipped"))

    def test_without_the_kit_the_rest_is_done(self) -> None:
        if shutil.which("rt", path="/usr/bin:/bin"):
            self.skipTest("rt is in /usr/bin: it can't be taken away")
        self.command("wbsim", "echo wbsim: why >&2; exit 70")
        status, lines, said = self.check(folders=("bin",))
        self.assertEqual((status, lines), (0, [
            "layout: skipped: rt isn't there", "tools: with --jobs 1", "runs: skipped: rt isn't there, and no program is kept",
            "page: skipped: rt isn't there, and no program is kept", "wrong-rules: with --first --quick --jobs 1", "18 passed, 0 failed, 3 skipped"]))
        self.assertIn("wbsim: why", said)

    def test_there_is_no_program(self) -> None:
        self.command("wbsim", "echo wbsim: why >&2; exit 70")
        status, lines, said = self.check()
        self.assertEqual((status, lines), (1, ["failed: ./wbsim has no program to run", "0 passed, 1 failed, 0 skipped"]))
        self.assertIn("wbsim: why", said)
