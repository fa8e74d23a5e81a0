"""The program: what it prints, how it ends, and that nothing is written of a text that is refused."""
from __future__ import annotations

import io
import os
import pty
import resource
import subprocess
import sys
import unittest
from unittest import mock

from journals import picture
from journals.progress import Progress
from program import interpreters
from program.main import main

from . import long_journal
from .given import TOOLS, WithDirectory, text, text_path

PROGRAM = os.path.join(TOOLS, "wb")
TEXTS = (text_path("throttled.trace"), text_path("throttled.journal"))
MEASURED = """
import sys
sys.path.insert(0, sys.argv.pop(1))
from program import interpreters
from program.main import main
status = main(sys.argv[1:])
with open("/proc/self/status") as lines:
    print(*(line.split()[1] for line in lines if line.startswith("VmHWM")), file=sys.stderr)
sys.exit(status)
"""
"""Runs the program, and says the most memory that it had, in KiB."""


def run(*words: str, **more: object) -> subprocess.CompletedProcess[str]:
    """One run of the program."""
    return subprocess.run([sys.executable, PROGRAM, *words], capture_output=True, text=True, check=False, **more)


class Program(WithDirectory):
    def test_summary(self) -> None:
        done = run("summary", *TEXTS)
        self.assertEqual((done.returncode, done.stderr, done.stdout), (0, "", text("throttled.summary")))

    def test_a_journal_from_standard_input(self) -> None:
        done = run("summary", TEXTS[0], "-", input=text("throttled.journal"))
        self.assertEqual((done.returncode, done.stderr, done.stdout), (0, "", text("throttled.summary")))

    def test_annotate_has_each_line_first(self) -> None:
        done = run("annotate", *TEXTS)
        lines, told = text("throttled.journal").splitlines(), done.stdout.splitlines()
        self.assertEqual((done.returncode, len(told)), (0, len(lines)))
        for line, with_sentence in zip(lines, told):
            self.assertTrue(with_sentence.startswith(line + "  "), with_sentence)
            self.assertGreater(len(with_sentence[len(line):].strip()), 10)

    def test_csv(self) -> None:
        directory = os.path.join(self.directory, "tables")
        done = run("csv", *TEXTS, directory)
        names = ["ages.csv", "checks.csv", "estimates.csv", "folds.csv", "limits.csv", "steps.csv"]
        self.assertEqual((done.returncode, done.stderr, sorted(os.listdir(directory))), (0, "", names))
        self.assertEqual(sorted(done.stdout.split()), [os.path.join(directory, name) for name in names])

    def test_a_text_that_is_refused(self) -> None:
        bad = self.file("bad.journal", text("throttled.journal").replace("end done\n", ""))
        for words in (["summary"], ["annotate"], ["csv", "new"], ["plot", "new"]):
            if words[0] == "plot" and not picture.is_there():
                continue
            done = run(words[0], TEXTS[0], bad, *words[1:], cwd=self.directory)
            self.assertEqual((done.returncode, done.stdout), (2, ""), words)
            self.assertEqual(done.stderr, f"wb: {bad}: line 171: ends early: the text ends before the journal does\n")
            self.assertEqual(os.listdir(self.directory), ["bad.journal"])

    def test_a_directory_keeps_what_it_had(self) -> None:
        directory = os.path.join(self.directory, "tables")
        self.assertEqual(run("csv", *TEXTS, directory).returncode, 0)
        before = {name: os.stat(os.path.join(directory, name)).st_ino for name in os.listdir(directory)}
        bad = self.file("bad.journal", "timer\n")
        self.assertEqual(run("csv", *TEXTS, directory).returncode, 1, "nothing is written over")
        self.assertEqual(run("csv", "--force", TEXTS[0], bad, directory).returncode, 2)
        self.assertEqual({name: os.stat(os.path.join(directory, name)).st_ino for name in os.listdir(directory)}, before)

    def test_a_journal_of_another_trace(self) -> None:
        done = run("summary", text_path("threads.trace"), TEXTS[1])
        self.assertEqual((done.returncode, done.stdout), (2, ""))
        self.assertIn("line 3: unknown name: the trace has no domain 1", done.stderr)

    def test_a_trace_that_is_none(self) -> None:
        done = run("summary", TEXTS[1], TEXTS[1])
        self.assertEqual((done.returncode, done.stdout), (2, ""))
        self.assertIn("throttled.journal: line 1, column 1: bad line", done.stderr)

    def test_other_words(self) -> None:
        for words in ([], ["look", *TEXTS], ["summary", TEXTS[0]], ["csv", *TEXTS], ["plot", "--over", "pages", *TEXTS, "new"]):
            done = run(*words)
            self.assertEqual((done.returncode, done.stdout), (1, ""), words)
            self.assertIn("usage: wb", done.stderr)

    def test_help_says_that_no_proof_stands_on_it(self) -> None:
        done = run("--help")
        self.assertEqual(done.returncode, 0)
        self.assertIn("No proof stands on", " ".join(done.stdout.split()))

    def test_a_read_fault(self) -> None:
        done = run("summary", TEXTS[0], os.path.join(self.directory, "none"))
        self.assertEqual((done.returncode, done.stdout), (3, ""))
        self.assertIn("read fault", done.stderr)

    def test_a_write_fault(self) -> None:
        with open("/dev/full", "w", encoding="ascii") as full:
            done = subprocess.run([sys.executable, PROGRAM, "summary", *TEXTS], stdout=full, stderr=subprocess.PIPE, text=True,
                                  check=False)
        self.assertEqual((done.returncode, done.stderr), (4, "wb: write fault: standard output: No space left on device\n"))
        done = run("csv", *TEXTS, os.path.join(self.directory, "no", "such"))
        self.assertEqual((done.returncode, done.stdout), (4, ""))

    def test_a_file_that_grows_too_large(self) -> None:
        """The rows of a table fail in the middle of the journal: nothing stays."""
        done = run("csv", *TEXTS, os.path.join(self.directory, "tables"),
                   preexec_fn=lambda: resource.setrlimit(resource.RLIMIT_FSIZE, (1024, 1024)))
        self.assertEqual((done.returncode, done.stdout, os.listdir(self.directory)), (4, "", []))
        self.assertIn("write fault", done.stderr)

    def test_a_reader_that_goes_away(self) -> None:
        content = text("threads.journal").replace("write 0 1 fresh\n", "write 0 1 fresh\n" * 20000)
        journal = self.file("journal", content)
        with subprocess.Popen([sys.executable, PROGRAM, "annotate", text_path("threads.trace"), journal],
                              stdout=subprocess.PIPE, stderr=subprocess.PIPE) as process:
            process.stdout.read(10)
            process.stdout.close()
            said = process.stderr.read()
        self.assertEqual((process.returncode, said), (4, b""))

    def test_without_matplotlib(self) -> None:
        with mock.patch.object(picture, "is_there", lambda: False), mock.patch("sys.stderr", io.StringIO()) as said:
            status = main(["plot", *TEXTS, os.path.join(self.directory, "new")])
        self.assertEqual((status, os.listdir(self.directory)), (5, []))
        self.assertIn("python3-matplotlib", said.getvalue())

    def test_another_python_that_has_matplotlib(self) -> None:
        """It goes on there with the same words, once; one that has none either is named."""
        begun = mock.Mock(side_effect=SystemExit)
        words = ["tools/wb", "plot", *TEXTS, os.path.join(self.directory, "new")]
        system = self.file("python3", '#!/bin/sh\n[ "$1" = -c ]\n')
        for mode, environment, wanted in ((0o755, {}, True), (0o755, {interpreters.BEGUN: "1"}, False), (0o644, {}, False)):
            os.chmod(system, mode)
            begun.reset_mock()
            with mock.patch.object(picture, "is_there", lambda: False), mock.patch.object(interpreters, "SYSTEM", system), \
                    mock.patch.object(sys, "argv", words), mock.patch.dict(os.environ, environment), mock.patch("os.execve", begun), \
                    mock.patch("sys.stderr", io.StringIO()) as said:
                if wanted:
                    self.assertRaises(SystemExit, main)
                    path, arguments, passed = begun.call_args.args
                    self.assertEqual((path, arguments, passed[interpreters.BEGUN]), (system, [system, *words], "1"))
                else:
                    self.assertEqual((main(), begun.called), (5, False))
                    self.assertIn(f"for {sys.executable} or {system} (", said.getvalue())
        self.assertEqual(os.listdir(self.directory), ["python3"])


class LongJournals(WithDirectory):
    def most_memory(self, rounds: int, command: str, *words: str) -> int:
        """KiB that a command takes for a long journal."""
        paths = long_journal.write(rounds, self.directory)
        done = subprocess.run([sys.executable, "-c", MEASURED, TOOLS, command, *paths, *words], stdout=subprocess.DEVNULL,
                              stderr=subprocess.PIPE, text=True, check=True)
        return int(done.stderr)

    def test_memory_does_not_grow_with_a_journal(self) -> None:
        """Of 600 rounds, 6.8 MB, the events themselves would take more than 20 MiB."""
        for words in (["summary"], ["csv", "--force", os.path.join(self.directory, "tables")]):
            few, many = self.most_memory(100, *words), self.most_memory(600, *words)
            self.assertLess(many - few, 5 << 10, words[0])


class Terminal(io.StringIO):
    """A stream that is a terminal."""

    def isatty(self) -> bool:
        """It is."""
        return True


class ProgressLine(WithDirectory):
    def shown(self, stream: io.StringIO, whole: int | None) -> str:
        """What is written of three pieces, a second apart."""
        with mock.patch("time.monotonic", side_effect=range(100, 200)):
            progress = Progress("j", whole, stream)
            for _ in range(3):
                progress.add(1_000_000)
            progress.end()
        return stream.getvalue()

    def test_on_a_terminal(self) -> None:
        shown = self.shown(Terminal(), 4_000_000)
        self.assertIn("j: 3.0 of 4.0 MB, 75 percent", shown)
        self.assertTrue(shown.endswith("\r\033[K"), "it is taken away at the end")
        self.assertIn("j: 2.0 MB", self.shown(Terminal(), None))

    def test_nothing_elsewhere(self) -> None:
        self.assertEqual(self.shown(io.StringIO(), 4_000_000), "")

    def run_on_a_terminal(self, *words: str) -> tuple[int, str]:
        """The status of a run whose standard error is a terminal, and what it says there."""
        leader, follower = pty.openpty()
        done = subprocess.run([sys.executable, PROGRAM, *words], stdout=subprocess.DEVNULL, stderr=follower, check=False)
        os.close(follower)
        said = os.read(leader, 1 << 16).decode()
        os.close(leader)
        return done.returncode, said

    def test_of_a_run_on_a_terminal(self) -> None:
        paths = long_journal.write(300, self.directory)
        status, said = self.run_on_a_terminal("summary", *paths)
        self.assertEqual(status, 0)
        self.assertIn("long.journal: ", said)
        self.assertTrue(said.endswith("\r\x1b[K"), said[-40:])

    def test_a_refusal_has_its_own_line(self) -> None:
        paths = long_journal.write(300, self.directory)
        with open(paths[1], "a", encoding="ascii") as file:
            file.write("end done\n")
        status, said = self.run_on_a_terminal("summary", *paths)
        self.assertEqual(status, 2)
        self.assertIn("percent\r\x1b[Kwb: ", said)


if __name__ == "__main__":
    unittest.main()
