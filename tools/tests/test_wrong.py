"""Wrong rules: what is read of the repository's worked runs, rows and examples, and what is found to notice a rule."""
from __future__ import annotations

import os
import re
import subprocess
import sys
from collections import Counter
from unittest import mock

from wrong import trying
from wrong.inputs import FULL, Input, examples, inputs, law_rows, small_replays, sum_of, trace_text, worked_runs
from wrong.order import WITHOUT_EFFECT, changed
from wrong.rules import RULES, Rule
from wrong.trying import Copy, parted
from wrong.values import Values

from .given import ROOT, TOOLS, WithDirectory

DEFINITIONS = '''\
-- what a comment says = 1
abbrev pub two : (n : ℕ) → Thing
two n = record {
  ones = One n 1 ∷ One 2 n ∷ [];
  deep = (record { at = n }) ∷ [];
  halt = None;
}

abbrev pub other : Thing
other = record (two 7) { halt = Some 3 }

text = codes "a\\n" ++ codes "b"
ARun =
    printed (made other)
    ≡ text
'''


class OfDefinitions(WithDirectory):
    def test_they_are_worked_out(self) -> None:
        values = Values(DEFINITIONS)
        self.assertEqual(values.named("other"), {"ones": [("One", 7, 1), ("One", 2, 7)], "deep": [{"at": 7}], "halt": ("Some", 3)})
        self.assertEqual(values.named("ARun"), ("≡", ("printed", ("made", values.named("other"))), "a\nb"))

    def test_what_is_no_such_definition(self) -> None:
        for text in ("a = record { b 1 }", "a = (1", "a = 1 )"):
            with self.assertRaises(ValueError):
                Values(text).named("a")


class OfTheRepository(WithDirectory):
    def source(self, *path: str) -> str:
        """A file of the crates."""
        with open(os.path.join(ROOT, "crates", *path), encoding="utf-8") as file:
            return file.read()

    def test_every_worked_run_is_read(self) -> None:
        functions = re.findall(r"^pub fn (\w+)\(", self.source("wbt_replay_worked", "src", "worked.rt"), re.MULTILINE)
        self.assertEqual(sorted(it.name for it in worked_runs(ROOT)), sorted(functions))
        self.assertEqual([it.name for it in worked_runs(ROOT) if not it.steps], ["dirty_again_run"])

    def test_a_trace_is_written(self) -> None:
        traces = {it.name: it.text for it in worked_runs(ROOT)}
        self.assertEqual(traces["halted_run"].splitlines()[6:], [
            "avail 0 100000", "device 0 25600 0 100", "context 0 0 0", "inode 0 0 2", "task 0 0", "flusher 0 0 0", "write 0 0 0 2", "halt 3"])
        self.assertIn("order timer 11\n", traces["checked_run"])
        self.assertRaises(KeyError, trace_text, {"cpus": 1})

    def test_every_row_and_example_is_read(self) -> None:
        rows = re.search(r"static ROWS: \[Row; (\d+)\]", self.source("wbt_law_tests", "src", "laws.rt"))
        assert rows
        self.assertEqual(len(law_rows(ROOT)), int(rows.group(1)))
        self.assertEqual(len(small_replays(ROOT)), 9)
        kept = [name for name in os.listdir(os.path.join(ROOT, "examples")) if name.endswith((".journal", ".sum"))]
        forecasts = [name for name in os.listdir(os.path.join(ROOT, "examples")) if name.endswith(".forecast")]
        self.assertEqual(Counter(it.command for it in examples(ROOT)), {"replay": len(kept), "forecast": len(forecasts), "law": 1})


class OfRules(WithDirectory):
    def setUp(self) -> None:
        super().setUp()
        self.copy = Copy(TOOLS, self.directory)
        self.addCleanup(self.copy.close)

    def test_each_has_a_name_and_a_place(self) -> None:
        rules = (*RULES, *WITHOUT_EFFECT)
        self.assertEqual(len({rule.name for rule in rules}), len(rules))
        for rule in rules:
            with self.subTest(rule.name):
                self.copy.change(rule)
                self.copy.restore(rule)
                self.assertNotEqual(rule.old, rule.new)

    def test_documents_say_how_many_there_are(self) -> None:
        for document in ("docs/CLAIMS.md", "docs/PROVED.md"):
            with open(os.path.join(ROOT, document), encoding="utf-8") as file:
                text = file.read()
            self.assertRegex(text, rf"\b{len(RULES)} (wrong )?rules\b", document)

    def test_places_of_a_text(self) -> None:
        self.assertEqual(changed("a b c", ("a", "x"), ("c", "")), ("a b c", "x b "))
        for place in ("d", "b"):
            with self.assertRaises(ValueError):
                changed("a b b", (place, "x"))

    def test_an_old_text_that_is_not_there(self) -> None:
        for old in ("no such text", "return"):
            with self.assertRaises(ValueError):
                self.copy.change(Rule("x", "replay.py", old, ""))

    def test_the_unchanged_programs_print_what_is_wanted(self) -> None:
        given = inputs(ROOT)
        parts = parted(given)
        self.assertEqual(sorted(it.name for part in parts for it in part), sorted(it.name for it in given))
        self.assertEqual([len(part) > 0 for part in parts], [True, True, True, True])
        self.assertEqual([it.name for it in parts[-1]], list(FULL))
        self.assertEqual(self.copy.differing([it for part in parts[:-1] for it in part]), [], "those of all steps tools/wrong-rules compares")

    def test_who_notices_a_rule(self) -> None:
        given = {it.name: it for it in inputs(ROOT)}
        decision, empty = given["decision.law"], given["empty.trace"]
        rounded = Rule("x", "laws/decision.py", "ratelimit * terms.ratio >> 10", "ratelimit * terms.ratio >> 9")
        same = Rule("x", "laws/decision.py", "ratelimit * terms.ratio >> 10", "ratelimit * terms.ratio // 1024")
        self.assertEqual(self.copy.noticing(rounded, [[decision, empty], []]), [decision])
        self.assertEqual(self.copy.noticing(rounded, [[empty], [decision]]), [decision])
        self.assertEqual(self.copy.noticing(same, [[decision, empty], [decision]]), [])

    def test_each_file_is_loaded_anew(self) -> None:
        decision, row = (next(it for it in inputs(ROOT) if it.command == command) for command in ("law", "strict"))
        for name in sorted({rule.file for rule in (*RULES, *WITHOUT_EFFECT)}):
            with open(os.path.join(TOOLS, name), encoding="utf-8") as file:
                first = next(line for line in file if not line.startswith("#!"))
            for new, noticing in (("raise SystemExit\n", [decision, row]), ("", [])):
                with self.subTest(name, new=new):
                    self.assertEqual(self.copy.noticing(Rule("x", name, first, new + first + "\n"), [[decision, row]]), noticing)

    def test_a_rule_that_ends_the_program(self) -> None:
        two = Input("two", "replay", "cpus 1\navail 0 1\n", sum_of("x"), 1)
        ends = Rule("x", "replay.py", "        self.stopped, self.spent = 0, False\n", "        os._exit(9)\n")
        self.assertEqual(self.copy.noticing(ends, [[two, two]]), [two, two])
        self.assertEqual(self.copy.noticing(ends, [[two, two]], 1), [two])

    def test_a_rule_that_takes_too_long(self) -> None:
        law = next(it for it in inputs(ROOT) if it.name == "decision.law")
        lasts = Rule("x", "laws/decision.py", "ratelimit * terms.ratio >> 10", "[0 for _ in iter(int, 1)]")
        with mock.patch.object(trying, "MOST_SECONDS", 1):
            self.assertEqual(self.copy.noticing(lasts, [[law, law]]), [law, law])
        self.assertEqual(self.copy.differing([law]), [], "the next one is answered")


class Program(WithDirectory):
    def run_with(self, *words: str) -> tuple[int, list[str]]:
        """A run of the program: its status and its lines."""
        done = subprocess.run([sys.executable, os.path.join(TOOLS, "wrong-rules"), *words], capture_output=True, text=True, check=False)
        return done.returncode, done.stdout.splitlines()

    def test_one_rule(self) -> None:
        status, lines = self.run_with("a rate is rounded up")
        self.assertEqual((status, lines[0]), (0, "noticed: a rate is rounded up: by the row 'a wait below the limit'"))
        self.assertRegex(lines[1], r"^1 rules noticed, 0 unnoticed, by \d+ inputs$")
        self.assertRegex(lines[2], r"^\d+ passed, 0 failed, 0 skipped$")

    def test_the_first_input_alone(self) -> None:
        status, lines = self.run_with("--first", "an average falls by a quarter")
        self.assertRegex(lines[0], r"^noticed: an average falls by a quarter: by [^,]*$")
        self.assertEqual(status, 0)

    def test_a_rule_that_no_short_input_notices(self) -> None:
        name = "a replay of all its steps is spent by a CPU that its halt line stops"
        status, lines = self.run_with("--quick", name)
        self.assertEqual((status, lines[:2]), (0, [
            "skipped: last-step-halted.trace: a replay of all steps takes half a minute",
            f"skipped: {name}: only a replay of all steps may notice it"]))
        self.assertRegex(lines[-1], r"^\d+ passed, 0 failed, 2 skipped$")

    def test_a_rule_without_effect(self) -> None:
        name = "the clock stops at the next period too"
        status, lines = self.run_with("--quick", name)
        self.assertEqual((status, lines[1]), (0, f"without effect: {name}"))
        self.assertRegex(lines[-1], r"^\d+ passed, 0 failed, 1 skipped$")

    def test_words_of_no_rule(self) -> None:
        self.assertEqual(self.run_with("no such rule"), (1, [
            "failed: no rule has one of these words in its name", "0 passed, 1 failed, 0 skipped"]))
