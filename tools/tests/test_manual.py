"""The manual pages are well formed, and say what the programs and their examples say."""
from __future__ import annotations

import argparse
import os
import re
import shutil
import subprocess
import unittest
from importlib import import_module

from jobs import options as of_jobs
from program.statuses import MEANINGS
from program.words import WORDS

from .given import EXAMPLES, ROOT

MANUALS = ("wbsim.1", "wb.1")


def content(*path: str) -> str:
    """A file of the repository."""
    with open(os.path.join(ROOT, *path), encoding="utf-8") as file:
        return file.read()


class Manual(unittest.TestCase):
    @unittest.skipUnless(shutil.which("mandoc"), "mandoc isn't there: the manual page is not linted")
    def test_mandoc_finds_nothing(self) -> None:
        for name in MANUALS:
            words = ["mandoc", "-Tlint", "-W", "style", os.path.join(ROOT, "docs", name)]
            done = subprocess.run(words, capture_output=True, text=True, check=False)
            self.assertEqual((done.returncode, done.stdout), (0, ""), name)

    def test_it_has_each_text_of_a_status(self) -> None:
        texts = re.findall(r"^\| \d+ \| `(wbsim: [^`]*)` \|", content("docs", "FORMATS.md"), re.MULTILINE)
        self.assertGreater(len(texts), 4)
        for said in texts:
            self.assertIn(f".Ql {said} :", content("docs", "wbsim.1"))

    def test_it_has_each_line_of_a_trace(self) -> None:
        trace = content("docs", "FORMATS.md").partition("### What is refused")[0]
        rows = re.findall(r"^\| `([a-z_ ]+?) [\d ]+` \|", trace, re.MULTILINE)
        self.assertGreater(len(rows), 15)
        for word in rows:
            self.assertIn(f".It Li {word} Ar", content("docs", "wbsim.1"), word)

    def test_its_decision_is_that_of_the_example(self) -> None:
        with open(os.path.join(EXAMPLES, "decision.out"), encoding="ascii") as file:
            self.assertIn(file.read(), content("docs", "wbsim.1"))


def parsers() -> dict[str, argparse.ArgumentParser]:
    """The parser of each word of `tools/wb`, and in place of a word that has parts that of each part."""
    found: dict[str, argparse.ArgumentParser] = {}
    for word in WORDS:
        parser = argparse.ArgumentParser()
        import_module(word.module).add(parser)
        parts = [action for action in parser._actions if isinstance(action, argparse._SubParsersAction)]
        found |= {f"{word.name} {name}": part for action in parts for name, part in action.choices.items()} or {word.name: parser}
    return found


def long_options(parser: argparse.ArgumentParser) -> set[str]:
    """Its options, but for that of the help."""
    return {name for action in parser._actions for name in action.option_strings if name.startswith("--")} - {"--help"}


def jobs_parser() -> argparse.ArgumentParser:
    """One that has the options of jobs alone."""
    parser = argparse.ArgumentParser()
    of_jobs.add(parser)
    return parser


class ManualOfTools(unittest.TestCase):
    def setUp(self) -> None:
        self.text = content("docs", "wb.1")
        names = r"\n\.It Cm ([a-z-]+(?: [a-z]+)?)(?= (?:Ar|Fl)|\n)"
        pieces = re.split(names, self.text)
        self.words = dict(zip(pieces[1::2], pieces[2::2]))

    def test_it_has_the_words_of_the_program(self) -> None:
        self.assertEqual(sorted(self.words), sorted(parsers()))

    def test_it_has_each_option_in_its_word(self) -> None:
        """But for those of many words, which stand at its head, and those of jobs, which have a part of their own."""
        told_of_jobs = set(re.findall(r"\n\.It Fl -([a-z-]+)", self.text.partition(".Ss Options of jobs")[2].partition(".Ss ")[0]))
        self.assertEqual({f"--{name}" for name in told_of_jobs}, long_options(jobs_parser()))
        for word, parser in parsers().items():
            options = long_options(parser) - {"--force"}
            options -= long_options(jobs_parser()) if word in ("sweep", "study", "nearest") else set()
            told = {f"--{name}" for name in re.findall(r"Fl -([a-z]+(?:-[a-z]+)*)", self.words[word])}
            self.assertLessEqual(options, told, word)

    def test_it_has_each_status(self) -> None:
        for status, meaning in MEANINGS.items():
            self.assertIn(f"\n.It {status.value}\n{meaning}\n", self.text)
