"""Wrong bodies: which can be put in, what is read of a prover's words, and what a run over a small checkout prints, writes and leaves."""
from __future__ import annotations

import contextlib
import io
import os
import shutil
import signal
import subprocess
import sys
import time
import unittest

from bodies.command import run
from bodies.edit import changes_of
from bodies.results import clauses_cell, merged
from bodies.standing import problems
from bodies.verdicts import Kind, Verdict, read_verdicts

from .given import TOOLS, WithDirectory

# A prover that says of each edit what stands in its comment, and writes down with what it was asked.
PROVER = f"""\
#!{sys.executable}
import os, sys, time
crate = sys.argv[2]
folder = os.path.join("crates", crate, "must-fail")
with open(os.environ["ASKED"], "a") as asked:
    outs = [(it, os.path.join("crates", it, "out")) for it in ("low", "high", "high_tests")]
    kept = [f"{{it}} {{os.listdir(out) if os.path.isdir(out) else 'none'}}" for it, out in outs]
    print(crate, os.environ["RT_JOBS"], os.getcwd(), *kept, file=asked)
if os.path.exists(os.path.join("crates", crate, "src", "slow.rt")):
    os.mkdir(os.path.join(os.environ["TMPDIR"], "seed"))
    time.sleep(60)
for name in sorted(os.listdir(folder)):
    with open(os.path.join(folder, name)) as edit:
        print(f"rt: must-fail {{crate}}/{{name}}: " + edit.readline()[2:].rstrip(), flush=True)
"""

PROVED = "Before.\n\n<!-- tools/mutants prints this -->\n\n<!-- to here -->\n\nBehind.\n"

HEAD = (
    "| Crate | Tried | Refused by a clause or an obligation | Only by a name | Only by a limit | Bad | Not refused | Not tried | Commit | Date |\n"
    "|---|---|---|---|---|---|---|---|---|---|\n"
)

BY_VALUE = "refused, as it must be: note: src/lib.rt:2:1: it is not proved that what the function ensures holds (`returns-clause-value`)"
BY_NAME = "refused, as it must be (only because a proof file names what the edit took away, so this says little): proofs/A.antt:1:1: error"
BY_LIMIT = "refused, as it must be (only by a limit of the prover, which gave no verdict): outgrew the memory limit ("
MISSED = "NOT REFUSED: the crate is still proved with this edit"


class Checkout(WithDirectory):
    """A checkout of three crates, of which two have wrong bodies, and a prover on the path."""

    def setUp(self) -> None:
        super().setUp()
        if not shutil.which("git"):
            self.skipTest("git isn't there: wrong bodies aren't tried in a small checkout")
        self.root = os.path.join(self.directory, "root")
        self.asked = os.path.join(self.directory, "asked")
        self.scratch = os.path.join(self.directory, "scratch")
        os.mkdir(self.scratch)
        self.put("crates.txt", "# Two.\nlow:\nhigh: low\n\n# Tests.\nhigh_tests: high\n")
        self.put("docs/PROVED.md", PROVED)
        self.put("crates/low/src/lib.rt", "one\ntwo\nthree\n")
        self.put("crates/high/src/lib.rt", "four\n")
        self.put("crates/high_tests/src/lib.rt", "five\n")
        self.edit("low/must-fail/forgets_one", "one", BY_VALUE)
        self.edit("low/mutants/forgets_two", "two", BY_VALUE)
        self.edit("low/mutants/renames_three", "three", BY_NAME)
        self.edit("high/mutants/forgets_four", "four", BY_LIMIT)
        self.git("init", "--quiet")
        self.commit()
        self.prover()

    def put(self, path: str, text: str) -> None:
        """A file of the checkout."""
        path = os.path.join(self.root, path)
        os.makedirs(os.path.dirname(path), exist_ok=True)
        with open(path, "w", encoding="utf-8") as file:
            file.write(text)

    def edit(self, path: str, old: str, said: str) -> None:
        """An edit of src/lib.rt, and what the prover says of it."""
        self.put(f"crates/{path}.edit", f"# {said}\nfile: src/lib.rt\nold: {old}\nnew: none\n")

    def git(self, *words: str) -> str:
        who = ["-c", "user.name=Test", "-c", "user.email=test@example.org"]
        return subprocess.run(["git", "-C", self.root, *who, *words], check=True, capture_output=True, text=True).stdout

    def commit(self) -> None:
        self.git("add", "--all")
        self.git("commit", "--quiet", "--message", "All")

    # Puts the prover first on the path, and the clones where they are seen.
    def prover(self) -> None:
        path = os.path.join(self.directory, "bin", "rt")
        os.mkdir(os.path.dirname(path))
        with open(path, "w", encoding="utf-8") as file:
            file.write(PROVER)
        os.chmod(path, 0o755)
        self.given = {"PATH": f"{os.path.dirname(path)}:{os.environ['PATH']}", "ASKED": self.asked, "TMPDIR": self.scratch}

    def run_on(self, *words: str) -> tuple[int, str, str]:
        """The status, the standard output and the standard error of a run."""
        code = "import sys\nfrom bodies.command import run\nsys.exit(run(sys.argv[1], sys.argv[2:], 'Tries.\\n\\nusage: it'))"
        done = subprocess.run(
            [sys.executable, "-B", "-c", code, self.root, *words], env={**os.environ, **self.given, "PYTHONPATH": TOOLS},
            capture_output=True, text=True, check=False,
        )
        return done.returncode, done.stdout, done.stderr

    def tail(self) -> str:
        """What ends each row of a run on what is committed."""
        return f"{self.git('rev-parse', '--short', 'HEAD').strip()} | {time.strftime('%Y-%m-%d', time.gmtime())} |"


class OnACheckout(Checkout):
    def test_all_are_tried_beside_the_edits_of_the_gate(self) -> None:
        status, printed, said = self.run_on("--jobs", "1")
        rows = (
            f"| `low` | 3 | 2: `value` 2 | 1: `renames_three` | | | | | {self.tail()}\n"
            f"| `high` | 1 | | | 1: `forgets_four` | | | | {self.tail()}\n"
        )
        self.assertEqual((status, printed), (0, HEAD + rows + "4 refused, 0 not refused, 0 bad, 0 not tried\n"))
        self.assertEqual(sorted(said.splitlines()), [
            "high: 1 refused, 0 not refused, 0 bad, 0 not tried", "low: 3 refused, 0 not refused, 0 bad, 0 not tried",
        ])
        with open(self.asked, encoding="utf-8") as asked:
            self.assertEqual([line.split()[:2] for line in asked], [["low", "1"], ["high", "1"]])

    def test_the_checkout_stays_and_the_clone_goes(self) -> None:
        self.run_on()
        self.assertEqual(self.git("status", "--porcelain"), "")
        self.assertEqual(os.listdir(self.scratch), [])

    def test_what_is_not_refused_is_named(self) -> None:
        self.edit("low/mutants/means_the_same", "two", MISSED)
        self.edit("low/mutants/is_gone", "six", "BAD EDIT: an 'old:' text is in src/lib.rt 0 times")
        self.edit("low/mutants/was_killed", "two", "NOT TRIED: its check was killed")
        status, printed, said = self.run_on("low")
        row, last = printed.splitlines()[2:]
        self.assertIn("| `low` | 4 | 2: `value` 2 | 1: `renames_three` | | 1: `is_gone` | 1: `means_the_same` | 1: `was_killed` |", row)
        self.assertIn(" and changes | ", row)
        self.assertEqual((status, last), (1, "3 refused, 1 not refused, 1 bad, 1 not tried"))
        self.assertIn(f"low/means_the_same: {MISSED}\n", said)

    def test_what_is_not_committed_is_tried(self) -> None:
        os.remove(os.path.join(self.root, "crates/low/mutants/forgets_two.edit"))
        self.git("mv", "crates/low/must-fail/forgets_one.edit", "crates/low/mutants/leaves_one.edit")
        self.assertEqual(self.run_on("low")[1].splitlines()[-1], "2 refused, 0 not refused, 0 bad, 0 not tried")

    def test_a_check_begins_with_what_was_kept(self) -> None:
        self.put(".gitignore", "out/\n")
        self.put("crates/low/out/incremental/one.oantt", "kept")
        self.put("crates/high_tests/out/incremental/two.oantt", "kept")
        self.run_on("high")
        with open(self.asked, encoding="utf-8") as asked:
            self.assertEqual(asked.read().partition(" /")[2].partition(" ")[2], "low ['incremental'] high none high_tests none\n")
        self.assertTrue(os.path.exists(os.path.join(self.root, "crates/low/out/incremental/one.oantt")))

    def test_one_of_which_nothing_is_said_was_not_tried(self) -> None:
        self.put("crates/low/must-fail/forgets_one.edit", "file: src/lib.rt\nold: one\nnew: none\n")
        self.assertEqual(self.run_on("low")[1].splitlines()[-1], "2 refused, 0 not refused, 0 bad, 1 not tried")

    def test_rows_are_written_and_those_of_other_crates_stay(self) -> None:
        self.run_on("--write")
        self.commit()
        self.git("mv", "crates/high/mutants/forgets_four.edit", "crates/high/mutants/loses_four.edit")
        self.commit()
        before = self.document()
        self.run_on("high", "--write")
        after = self.document()
        self.assertEqual([line for line in before if line not in after], [line for line in before if "`high`" in line])
        self.assertEqual([line for line in after if line not in before], [f"| `high` | 1 | | | 1: `loses_four` | | | | {self.tail()}"])
        self.assertEqual((after[0], after[-2], len(after)), ("Before.", "Behind.", len(before)))

    def document(self) -> list[str]:
        with open(os.path.join(self.root, "docs/PROVED.md"), encoding="utf-8") as document:
            return document.read().split("\n")

    def test_nothing_is_written_of_what_is_not_committed(self) -> None:
        self.put("crates/low/src/more.rt", "six\n")
        status, printed, said = self.run_on("--write")
        self.assertEqual((status, printed), (1, ""))
        self.assertEqual(said, "mutants: what would be written is of no commit, since crates/low/src/more.rt isn't committed\n")
        self.assertFalse(os.path.exists(self.asked))

    def test_a_crate_without_wrong_bodies_is_refused(self) -> None:
        for name in ("high_tests", "lower"):
            self.assertEqual(self.run_on(name), (1, "", f"mutants: there is no crate {name} that has wrong bodies\n"))

    def test_a_run_that_is_interrupted_leaves_nothing(self) -> None:
        self.put("crates/low/src/slow.rt", "")
        code = "import sys\nfrom bodies.command import run\nsys.exit(run(sys.argv[1], sys.argv[2:], 'Tries.\\n\\nusage: it'))"
        with subprocess.Popen(
            [sys.executable, "-B", "-c", code, self.root], env={**os.environ, **self.given, "PYTHONPATH": TOOLS}, stdout=subprocess.DEVNULL
        ) as ran:
            deadline = time.monotonic() + 30
            while not os.path.exists(self.asked) and time.monotonic() < deadline:
                time.sleep(0.02)
            ran.send_signal(signal.SIGTERM)
            self.assertEqual(ran.wait(30), 128 + signal.SIGTERM)
        self.assertEqual(os.listdir(self.scratch), [])


class Listed(Checkout):
    def listed(self) -> tuple[int, list[str]]:
        printed = io.StringIO()
        with contextlib.redirect_stdout(printed):
            status = run(self.root, ["--list"], "Tries.\n\nusage: it")
        return status, printed.getvalue().splitlines()

    def test_how_many_stand_where(self) -> None:
        self.assertEqual(self.listed(), (0, [
            "low: 1 in the gate, 2 mutants", "high: 0 in the gate, 1 mutants", "1 in the gate, 3 mutants, 0 bad",
        ]))

    def test_one_that_cannot_be_put_in_is_bad(self) -> None:
        self.put("crates/low/src/lib.rt", "one\ntwo\ntwo\n")
        self.assertEqual(self.listed(), (1, [
            "low: 1 in the gate, 2 mutants", "high: 0 in the gate, 1 mutants",
            "bad: crates/low/mutants/forgets_two.edit: its old text stands 2 times in src/lib.rt, and not once: two",
            "bad: crates/low/mutants/renames_three.edit: its old text stands 0 times in src/lib.rt, and not once: three",
            "1 in the gate, 3 mutants, 2 bad",
        ]))

    def test_names_and_other_files(self) -> None:
        self.edit("low/mutants/forgets_one", "one", BY_VALUE)
        self.put("crates/low/mutants/notes.txt", "")
        self.put("crates/low/mutants/notes.md", "")
        self.put("crates/high/must-fail/more/forgets_four.edit", "")
        self.assertEqual(list(problems(self.root)), [
            "crates/low/mutants/notes.txt: it is no file NAME.edit",
            "crates/low/mutants/forgets_one.edit: one of this name stands in must-fail/ too",
            "crates/high/must-fail/more: it is no file NAME.edit",
        ])

    def test_texts_that_are_no_edit(self) -> None:
        for text, why in (
            ("", "it changes nothing"),
            ("file: src/lib.rt\nold: one\nnew: one\n", "it changes nothing"),
            ("file: src/lib.rt\nold: one\n", "an old text has no new one"),
            ("old: one\nnew: two\n", "line 2: a new text stands before its file or its old text"),
            ("file: src/lib.rt\nold: one\nnew: two\nthree\n", "line 4 isn't read: it is no 'file:', 'old:' or 'new:'"),
            ("file: src/lost.rt\nold: one\nnew: two\n", "there is no file src/lost.rt in src/, specs/ or proofs/"),
            ("file: ../high/src/lib.rt\nold: four\nnew: two\n", "there is no file ../high/src/lib.rt in src/, specs/ or proofs/"),
        ):
            self.put("crates/low/must-fail/forgets_one.edit", text)
            self.assertEqual(list(problems(self.root)), [f"crates/low/must-fail/forgets_one.edit: {why}"])


class OfTexts(unittest.TestCase):
    def test_an_edit_may_change_a_text_that_it_made(self) -> None:
        text = "-- Why.\nfile: src/a.rt\nold: one \nnew: two\nold: three\nnew:\nfile: src/b.rt\nold: four: five\nnew: six\n"
        self.assertEqual(changes_of(text), [("src/a.rt", "one ", "two"), ("src/a.rt", "three", ""), ("src/b.rt", "four: five", "six")])

    def test_verdicts(self) -> None:
        said = "\n".join([
            "low: trying its must-fail edits (5)",
            f"rt: must-fail low/a.edit: {BY_VALUE}",
            "rt: must-fail low/b.edit: refused, as it must be: ./src/lib.rt:9:1: error: `call-requires-room`: a number is greater",
            "rt: must-fail low/c.edit: refused, as it must be",
            "rt: must-fail low/g.edit: refused, as it must be: note: src/a.rt:1:1: not proved (`returns-else-k-global-clause-stays_there`)",
            f"must-fail low/d.edit: {BY_NAME}",
            f"rt: must-fail low/e.edit: {BY_LIMIT}",
            "rt: must-fail high/f.edit: NOT REFUSED: the crate is still proved",
            "rt: must-fail low/unknown.edit: NOT REFUSED: the crate is still proved",
        ])
        self.assertEqual(read_verdicts("low", "abcdefg", said), {
            "a": Verdict(Kind.BY_CLAUSE, "value"),
            "b": Verdict(Kind.BY_CLAUSE, "call-requires-room"),
            "c": Verdict(Kind.BY_CLAUSE),
            "d": Verdict(Kind.BY_NAME, BY_NAME),
            "e": Verdict(Kind.BY_LIMIT, BY_LIMIT),
            "f": Verdict(Kind.NOT_TRIED, "nothing was said of it"),
            "g": Verdict(Kind.BY_CLAUSE, "stays_there"),
        })

    def test_clauses_are_counted_the_most_first(self) -> None:
        verdicts = [Verdict(Kind.BY_CLAUSE, why) for why in ("value", "left", "", "value", "", "", "due")]
        self.assertEqual(clauses_cell(verdicts), "7: `value` 2, `due`, `left`, others 3")
        self.assertEqual(clauses_cell([]), "")

    def test_a_row_of_a_crate_that_is_gone_goes(self) -> None:
        lines = ["| Crate |", "|---|", "| `gone` | 1 |", "| `high` | 2 |"]
        self.assertEqual(merged(lines, {"low": "| `low` | 3 |"}, ["low", "high"])[2:], ["| `low` | 3 |", "| `high` | 2 |"])
