"""What lies in examples/ is made by one program."""
from __future__ import annotations

import hashlib
import os
import subprocess
import sys
from importlib.util import find_spec

from journals import picture

from .given import EXAMPLES, TOOLS, WithDirectory, text, text_path

SEVEN = {
    "settled": ["settled-domain-0.png"],
    "memory-drop": ["memory-drop-domain-0.png"],
    "cgroup": ["cgroup-domain-0.png", "cgroup-domain-1.png"],
    "strict-disk": ["strict-disk-domain-0.png"],
    "age-disk": ["age-disk-domain-0.png"],
    "age-quiet": ["age-quiet-domain-0.png"],
    "stopped": ["stopped-domain-0.png"],
}
"""The machines whose traces are made too, and their pictures."""


class MakeExamples(WithDirectory):
    def setUp(self) -> None:
        super().setUp()
        self.examples = os.path.join(self.directory, "examples")
        os.mkdir(self.examples)
        os.symlink(TOOLS, os.path.join(self.directory, "tools"))
        self.file("examples/throttled.trace", text("throttled.trace"))

    def make(self, wbsim: str, *names: str, forecast: str = "cat") -> int:
        """Makes the examples of this directory with a program in the place of wbsim, and answers the status."""
        program = self.file("program", f"#!/bin/sh\n[ \"$1\" != forecast ] || exec {forecast}\n[ \"$1\" = replay ] || exit 1\n{wbsim}\n")
        os.chmod(program, 0o755)
        environment = {**os.environ, "WBSIM": program, "PYTHON": sys.executable}
        script = os.path.join(self.directory, "tools", "make-examples")
        return subprocess.run([script, *names], env=environment, capture_output=True, check=False).returncode

    def made(self, name: str) -> str:
        """A file that was made."""
        with open(os.path.join(self.examples, name), encoding="ascii") as file:
            return file.read()

    def test_a_journal(self) -> None:
        wbsim = f"cmp - {text_path('throttled.trace')} && cat {text_path('throttled.journal')}"
        self.assertEqual(self.make(wbsim, "throttled"), 0)
        self.assertEqual(self.made("throttled.journal"), text("throttled.journal"))
        self.assertEqual(sorted(os.listdir(self.examples)), ["throttled.journal", "throttled.trace"])

    def test_each_that_has_one(self) -> None:
        self.file("examples/throttled.journal", "old\n")
        self.file("examples/other.trace", "other\n")
        self.assertEqual(self.make("cat"), 0)
        self.assertEqual(self.made("throttled.journal"), text("throttled.trace"))
        self.assertFalse(os.path.exists(os.path.join(self.examples, "other.journal")))

    def test_a_journal_of_which_the_sum_is_kept(self) -> None:
        self.file("examples/throttled.sum", "old\n")
        self.assertEqual(self.make("cat"), 0)
        self.assertEqual(self.made("throttled.sum"), hashlib.sha256(text("throttled.trace").encode()).hexdigest() + "\n")
        self.assertEqual(sorted(os.listdir(self.examples)), ["throttled.sum", "throttled.trace"])

    def test_a_forecast_that_lies_there(self) -> None:
        self.file("examples/throttled.forecast", "forecast 7\nold\n")
        self.assertEqual(self.make("cat", "throttled"), 0)
        self.assertEqual(self.made("throttled.forecast"), text("throttled.trace"))

    def test_the_seven_machines(self) -> None:
        for name in SEVEN:
            lying = os.path.join(EXAMPLES, name)
            wbsim = f"cmp - {lying}.trace && cat {lying}.journal"
            self.assertEqual(self.make(wbsim, name), 0, name)
            with open(f"{lying}.trace", encoding="ascii") as trace:
                self.assertEqual(self.made(f"{name}.trace"), trace.read())

    def test_the_pictures_of_a_machine(self) -> None:
        if not picture.is_there():
            self.skipTest("matplotlib isn't there: the pictures are left out")
        for name, pictures in SEVEN.items():
            journal = self.file(f"examples/{name}.journal", "old\n")
            self.assertEqual(self.make(f"cat {os.path.join(EXAMPLES, name)}.journal"), 0, name)
            self.assertEqual([made for made in sorted(os.listdir(self.examples)) if made.endswith(".png")], pictures)
            for made in (os.path.basename(journal), *pictures):
                os.remove(os.path.join(self.examples, made))

    def test_a_journal_that_is_not_kept(self) -> None:
        self.assertEqual(self.make(f"cmp - {os.path.join(EXAMPLES, 'ordinary.trace')}", "ordinary"), 0)
        self.assertEqual(sorted(os.listdir(self.examples)), ["ordinary.trace", "throttled.trace"])

    def test_a_run_that_fails(self) -> None:
        self.file("examples/throttled.journal", "old\n")
        self.assertEqual(self.make("echo half; exit 9", "throttled", "none"), 1)
        self.assertEqual(self.made("throttled.journal"), "old\n")

    def test_pictures(self) -> None:
        if not picture.is_there():
            self.skipTest("matplotlib isn't there: the pictures are left out")
        self.assertEqual(self.make(f"cat {text_path('throttled.journal')}", "throttled:steps"), 0)
        self.assertEqual(sorted(os.listdir(self.examples)), [
            "throttled-domain-0.png", "throttled-domain-1.png", "throttled.journal", "throttled.trace"])
        self.assertEqual(self.make(f"cat {text_path('threads.journal')}", "throttled:steps"), 1, "no journal of the trace")

    def test_the_picture_of_a_forecast_that_lies_there(self) -> None:
        if not picture.is_there():
            self.skipTest("matplotlib isn't there: the pictures are left out")
        for path in ("two-pages.trace", "two-pages.forecast"):
            with open(os.path.join(EXAMPLES, path), encoding="ascii") as file:
                self.file(f"examples/{path}", file.read())
        self.file("examples/two-pages-forecast.png", "old\n")
        wbsim, forecast = (f"cat {os.path.join(EXAMPLES, f'two-pages.{kind}')}" for kind in ("journal", "forecast"))
        self.assertEqual(self.make(wbsim, "two-pages:steps", forecast=forecast), 0)
        with open(os.path.join(self.examples, "two-pages-forecast.png"), "rb") as made:
            self.assertEqual(made.read(4), b"\x89PNG")
        self.assertEqual(self.make(wbsim, "two-pages:steps", forecast="echo forecast 1000"), 1, "no forecast of the trace")

    def test_the_picture_of_a_study(self) -> None:
        if not picture.is_there() or not find_spec("tomllib"):
            self.skipTest("matplotlib isn't there: the pictures are left out")
        self.file("examples/throttled.toml", 'traces = ["throttled.trace"]\n[over]\ncap = [32, 64]\ndevice-0 = [5, 10]\n')
        self.assertEqual(self.make(f"cat {text_path('throttled.journal')}", "throttled:study"), 0)
        self.assertEqual(sorted(os.listdir(self.examples)), ["throttled-study.png", "throttled.toml", "throttled.trace"])
        self.assertEqual(self.make("exit 9", "throttled:study"), 1)
