"""Tries wrong rules: copies the programs, changes one place, and finds the inputs of which something else comes out."""
from __future__ import annotations

import compileall
import os
import shutil
import subprocess
import sys
from collections.abc import Sequence
from py_compile import PycInvalidationMode

from .inputs import UNKNOWN, Input
from .rules import Rule
from .serving import BEGIN, END, ENDED, READY

COPIED = ("journals", "laws", "program", "forecasting", "wrong")
LENGTHS = (20000, 60000, UNKNOWN)
"""Bytes of an output: an input with more is run only where none with fewer notices the rule."""

MOST_SECONDS, MOST_SECONDS_IF_FULL = 30, 300
"""After so much processor time a changed program is stopped: what it hasn't answered by then differs. All inputs take the unchanged program
two seconds, and then thirty for a replay of all steps."""


def parted(inputs: Sequence[Input]) -> list[list[Input]]:
    """The inputs that are run for each rule, and then those that take longer."""
    return [[it for it in inputs if sum(it.length > most for most in LENGTHS) == part] for part in range(len(LENGTHS) + 1)]


class Copy:
    """A copy of tools/ in a folder, of which one file at a time is changed, and a program that answers what the copy prints (`serving`)."""

    def __init__(self, tools: str, folder: str) -> None:
        self.tools, self.folder = tools, folder
        self.server: subprocess.Popen[str] | None = None
        self.changed = ""
        shutil.copy(os.path.join(tools, "replay.py"), folder)
        for name in COPIED:
            shutil.copytree(os.path.join(tools, name), os.path.join(folder, name), ignore=shutil.ignore_patterns("__pycache__"))

    def serve(self) -> None:
        """Begins the program, if it hasn't begun, and lets it load the unchanged copy. What is compiled here is taken only for a file that has
        this content."""
        if not self.server:
            compileall.compile_dir(self.folder, quiet=2, invalidation_mode=PycInvalidationMode.CHECKED_HASH)
            program = [sys.executable, "-I", "-S", "-B", os.path.join(self.folder, "wrong", "serving.py")]
            self.server = subprocess.Popen(  # pylint: disable=consider-using-with
                program, stdin=subprocess.PIPE, stdout=subprocess.PIPE, stderr=subprocess.DEVNULL, text=True)
            self.await_line(READY)

    def close(self) -> None:
        """Ends the program."""
        if self.server:
            self.server.communicate()
            self.server = None

    def change(self, rule: Rule) -> None:
        """Puts the wrong rule in. Raises `ValueError` where its old text doesn't stand just once."""
        path = os.path.join(self.folder, rule.file)
        with open(path, encoding="utf-8") as file:
            text = file.read()
        if text.count(rule.old) != 1:
            raise ValueError(f"'{rule.name}': its old text stands {text.count(rule.old)} times in tools/{rule.file}")
        with open(path, "w", encoding="utf-8") as file:
            file.write(text.replace(rule.old, rule.new))
        self.changed = rule.file.removesuffix(".py").replace("/", ".")

    def restore(self, rule: Rule) -> None:
        """Puts the right rule back."""
        shutil.copy(os.path.join(self.tools, rule.file), os.path.join(self.folder, rule.file))
        self.changed = ""

    def say(self, line: str) -> None:
        """A line to the program."""
        assert self.server and self.server.stdin
        self.server.stdin.write(line + "\n")
        self.server.stdin.flush()

    def hear(self) -> str:
        """The program's next line."""
        assert self.server and self.server.stdout
        line = self.server.stdout.readline()
        if not line:
            raise ChildProcessError("the program that answers has ended")
        return line[:-1]

    def await_line(self, line: str) -> None:
        """Hears the program up to this line."""
        while self.hear() != line:
            pass

    def differing(self, inputs: Sequence[Input], enough: int | None = None) -> list[Input]:
        """The inputs of which the copy prints something else than what is wanted; no further ones are tried where these are enough. Where
        the copy ends the program, all that are left differ."""
        self.serve()
        seconds = MOST_SECONDS_IF_FULL if any(it.length > UNKNOWN for it in inputs) else MOST_SECONDS
        self.say(f"{BEGIN} {seconds} {self.changed}")
        found: list[Input] = []
        for at, it in enumerate(inputs):
            self.say(it.request)
            said = self.hear()
            if said == ENDED:
                return [*found, *inputs[at:]][:enough]
            if said != it.wanted:
                found.append(it)
            if len(found) == enough:
                break
        self.say(END)
        self.await_line(ENDED)
        return found

    def noticing(self, rule: Rule, parts: Sequence[Sequence[Input]], enough: int | None = None) -> list[Input]:
        """The inputs that notice a wrong rule: those of the first part that has one."""
        self.serve()
        self.change(rule)
        try:
            return next(filter(None, (self.differing(part, enough) for part in parts)), [])
        finally:
            self.restore(rule)
