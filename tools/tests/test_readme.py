"""The README is short, its links lead somewhere, and what it shows is what programs print."""
from __future__ import annotations

import json
import os
import re
import shlex
import unittest

from program.words import WORDS

from .given import EXAMPLES, ROOT
from .test_kernel import printed
from .test_manual import content, long_options, parsers

MOST_LINES = 190
THREE = os.path.join("examples", "kernel", "three-writers.txt")


def blocks(text: str) -> list[str]:
    """What stands between fences."""
    return re.findall(r"^```\n(.*?)^```$", text, re.MULTILINE | re.DOTALL)


def anchors(document: str) -> set[str]:
    """The anchors of a document's headings."""
    heads = re.findall(r"^#+ (.*)$", content(document), re.MULTILINE)
    return {re.sub(r"[^\w -]", "", head.lower()).replace(" ", "-") for head in heads}


class Readme(unittest.TestCase):
    def setUp(self) -> None:
        self.text = content("README.md")
        self.commands = [line.removeprefix("$ ").partition("  #")[0].strip() for block in blocks(self.text) for line in block.splitlines()
                         if re.match(r"(\$ )?(sudo )?(tools/|\./wbsim|rt )", line)]
        self.commands += re.findall(r"`((?:sudo )?(?:tools/wb|\./wbsim) [^`]*)`", self.text)

    def test_it_is_short(self) -> None:
        self.assertLessEqual(len(self.text.splitlines()), MOST_LINES)

    def test_its_links_lead_somewhere(self) -> None:
        links = re.findall(r"\]\(([^)#]+)(?:#([^)]*))?\)", self.text)
        self.assertGreater(len(links), 20)
        for path, anchor in links:
            self.assertTrue(os.path.exists(os.path.join(ROOT, path)), path)
            if anchor:
                self.assertIn(anchor, anchors(path))
        for path in re.findall(r"`((?:crates|docs|examples|tools)/[\w./-]+)`", self.text):
            self.assertTrue(os.path.exists(os.path.join(ROOT, path)), path)

    def test_its_commands_have_words_and_files_that_are_there(self) -> None:
        found = parsers()
        names = {word.name for word in WORDS}
        self.assertGreater(len(self.commands), 15)
        for command in self.commands:
            words = shlex.split(command.partition("|")[0].removeprefix("sudo "))
            for word in words:
                if word.startswith(("examples/", "./", "tools/")):
                    self.assertTrue(os.path.exists(os.path.join(ROOT, word)), command)
            if words[0] == "tools/wb" and len(words) > 1:
                self.assertIn(words[1], names, command)
                name = " ".join(words[1:3]) if words[1] == "kernel" else words[1]
                self.assertLessEqual({word for word in words if word.startswith("--") and word != "--"}, long_options(found[name]), command)

    def test_its_figure_is_that_of_the_comparison(self) -> None:
        told = json.loads(printed("kernel", "compare", "--json", os.path.join(ROOT, THREE))[1])
        [pause] = [it for it in told["groups"][0]["numbers"] if it["number"] == "pause"]
        self.assertEqual((told["checks"], pause["equal"], pause["within rounding"], told["ticks_a_second"]), (1981, 1980, 1, 250))
        text = " ".join(self.text.split())
        self.assertIn("12 seconds and 1981 checks. In 1980 the two pauses agree to the tick (4 ms); in the other one a tick passed", text)
        rows = re.findall(r"^\| 6\.\d+, [^|]*\| \d+ \|", content("docs", "LINUX.md"), re.MULTILINE)
        self.assertIn(f"[{len(rows)} recordings, and what differs](docs/LINUX.md), of Linux 6.1, 6.12 and 6.18", text)

    def test_its_pause_is_told_so(self) -> None:
        [block] = [it for it in blocks(self.text) if "a pause of 200 ms" in it]
        out = printed("kernel", "explain", "--longest", os.path.join(ROOT, THREE))[1].replace(ROOT + os.sep, "")
        place = 0
        for line in block.replace("..\n", "").splitlines():
            self.assertIn(line + "\n", out[place:])
            place = out.index(line + "\n", place)

    def test_its_journal_is_that_of_the_example(self) -> None:
        [block] = [it for it in blocks(self.text) if "replay examples/two-pages.trace\n" in it]
        with open(os.path.join(EXAMPLES, "two-pages.journal"), encoding="ascii") as file:
            lines = file.read().splitlines()
        shown = [line.partition("  ")[0] for line in block.splitlines()[1:]]
        self.assertEqual([line for line in lines if line in shown], shown)
        self.assertIn(f"four of the {len(lines)} lines", self.text)
        self.assertEqual(len(shown), 4)

    def test_its_forecast_is_that_of_the_example(self) -> None:
        [block] = [it for it in blocks(self.text) if "forecast 1000 examples/settled.trace\n" in it]
        with open(os.path.join(EXAMPLES, "settled.forecast"), encoding="ascii") as file:
            lines = file.read().splitlines()
        shown = [line.partition("  ")[0] for line in block.splitlines()[1:]]
        self.assertEqual((lines[0], shown[0], len(shown)), ("forecast 1000", "from 20", 4))
        place = lines.index(shown[0])
        self.assertEqual(lines[place:place + len(shown)], shown)

    def test_its_table_of_limits_is_that_of_the_studies(self) -> None:
        rows = [[cell for cell in line.split("|")[1:-1]] for line in self.text.splitlines() if re.match(r"\| \d{8,} \|", line)]
        self.assertEqual(len(rows), 3)
        for row in rows:
            self.assertIn("|" + "|".join(row) + "|", content("docs", "STUDIES.md"))

    def test_it_has_at_most_ten_claims(self) -> None:
        rows = self.text.partition("| Claim | Call |\n|---|---|\n")[2].partition("\n\n")[0].splitlines()
        self.assertLessEqual(len(rows), 10)
        for row in rows:
            self.assertRegex(row, r"^\| \[\w.*\]\(docs/CLAIMS\.md#")


if __name__ == "__main__":
    unittest.main()
