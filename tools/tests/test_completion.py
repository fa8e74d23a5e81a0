"""Completion in bash: it has the words and the options of tools/wb, and the commands of ./wbsim."""
from __future__ import annotations

import os
import shlex
import shutil
import subprocess
import unittest

from program.words import WORDS

from .given import ROOT, TOOLS
from .test_manual import long_options, parsers


@unittest.skipUnless(shutil.which("bash"), "bash isn't there: completion is left out")
class Completion(unittest.TestCase):
    def answers(self, *lines: tuple[str, ...]) -> list[list[str]]:
        """What is offered at the end of each line, whose last word is the one that is being written."""
        script = [f". {os.path.join(TOOLS, 'completion', name)}" for name in ("wb.bash", "wbsim.bash")]
        for line in lines:
            function = "_" + os.path.basename(line[0])
            script += [f"COMP_WORDS=({shlex.join(line)}); COMP_CWORD={len(line) - 1}; COMPREPLY=(); {function} {line[0]}", 'echo "${COMPREPLY[*]}"']
        done = subprocess.run(["bash", "-c", "\n".join(script)], capture_output=True, text=True, check=True, cwd=ROOT)
        return [sorted(answer.split()) for answer in done.stdout.splitlines()]

    def test_words_and_parts(self) -> None:
        parts = sorted(name.partition(" ")[2] for name in parsers() if name.startswith("kernel "))
        self.assertEqual(self.answers(("tools/wb", ""), ("tools/wb", "kernel", ""), ("tools/wb", "su"), ("tools/wb", "kernel", "e")), [
            sorted(word.name for word in WORDS), parts, ["summary"], ["explain"]])

    def test_options_of_each_word(self) -> None:
        found = parsers()
        offered = self.answers(*(("tools/wb", *name.split(), "--") for name in found))
        for (name, parser), options in zip(found.items(), offered):
            self.assertEqual(set(options), long_options(parser) | {"--help"}, name)

    def test_values_and_files(self) -> None:
        self.assertEqual(self.answers(
            ("tools/wb", "plot", "--over", ""), ("tools/wb", "kernel", "plot", "--format", "s"), ("tools/wb", "summary", ""),
            ("tools/wb", "plot", "--name", "")), [["steps", "time"], ["svg"], [], []])

    def test_commands(self) -> None:
        self.assertEqual(self.answers(("./wbsim", ""), ("./wbsim", "re"), ("./wbsim", "law", "examples/d"), ("./wbsim", "run", "-"),
                                      ("./wbsim", "run", "-o", ""), ("./wbsim", "forecast", ""), ("./wbsim", "forecast", "9", "examples/two-p")), [
            sorted("replay forecast check law run audit bulk --version --help".split()), ["replay"], ["examples/decision.law"], ["-o"], [], [],
            ["examples/two-pages.trace"]])


if __name__ == "__main__":
    unittest.main()
