"""What a new kind costs: which equations and patterns name one, and which of them do nothing. And how large a repository is."""
from __future__ import annotations

import os
import subprocess
import sys
import unittest
from collections import Counter

from contracts.arms import arms, known_as
from contracts.equations import Equation, equations, spellings
from contracts.kinds import TYPES, Type, counts, summary, tables, whole
from contracts.sizes import lines, long_bodies, many_clauses, sizes, sizes_by_name, without_comment

from .given import ROOT, TOOLS, WithDirectory

DEFINITIONS = """\
-- one (Write t) = what a comment says
use Rattle.low.specs.Told.{Told, Write, Done as Ended}
use Rattle.low.specs.Told as told

abbrev pub one : (Write : ℕ) → Told → ℕ
one n (Write t) = n
one n (Ended t p) = p  -- not n
one n told.Share = 0
one n (other) = Write n

pub wide : Told
wide
    n (Write t ∷ more)
    = cond (n == 1)
        (Write 2)
        (wide n more)

held n = record { Write = n; many = held (Write n) }
    where
    inner : (told : Told) → told ≡ Write
    inner (Write t) = refl
    let v = inner (Write n) in v
"""

CODE = """\
fn of(it: Entry) -> u32 {
    // Entry::Write => 9,
    match it {
        Entry::Write { page, .. } if page == 3 => 1,
        Entry::Done {
            page,
        } | Entry::Check(_) => tell(Entry::Share, Row::Entry(Entry::Est(1))),
        Entry::Batch => Entry::Fault,
        other => keep(Some(Entry::Fault), "Entry::Write =>"),
    }
}

fn more(it: Entry, pair: (Entry, u32)) -> bool {
    if let Some(Entry::Est(place)) = it { return place == 1; }
    let Entry::Share = it else { return TimerEntry::Write == it };
    match pair {
        (Entry::Back(_), _) => { push(Entry::Fault) }
        _ => matches!(it, Entry::Check(_)) || it == Entry::Fault,
    }
}
"""


def equation(line: str) -> Equation:
    """The equation of a line that names `Write`."""
    return next(equations(line, ["Write"]))


class OfDefinitions(unittest.TestCase):
    def test_how_a_file_spells_a_name(self) -> None:
        names = ["Write", "Done", "Share"]
        self.assertEqual(spellings("low.specs.Told", names, DEFINITIONS), {
            "Write": "Write", "Ended": "Done", "told.Write": "Write", "told.Done": "Done", "told.Share": "Share"})
        self.assertEqual(spellings("low.specs.Told", names, "use Rattle.low.specs.Told\n"), {f"Told.{name}": name for name in names})
        self.assertEqual(spellings("low.specs", names, DEFINITIONS), {})

    def test_equations_that_name_one(self) -> None:
        found = list(equations(DEFINITIONS, ["Write", "Ended", "told.Share"]))
        self.assertEqual([(it.defined, it.left, it.right) for it in found], [
            ("one", "n (Write t)", "n"), ("one", "n (Ended t p)", "p"), ("one", "n told.Share", "0"),
            ("wide", "n (Write t ∷ more)", "cond (n == 1) (Write 2) (wide n more)"), ("inner", "(Write t)", "refl")])

    def test_what_is_idle(self) -> None:
        for line in ("f n (Write t) s = s", "f (Write t) = []", "f (Write t) = Unit {0}", "f (Write t) = tt", "f n (Write t) = Write t"):
            self.assertEqual((equation(line).is_idle, equation(line).does_nothing), (True, True), line)
        for line in ("f (Write t) = t", "f (Write t ∷ more) = more", "f n (Write t) = g n", "f n (Write t) = Done t", "f (Write t) = Unit {1}"):
            self.assertFalse(equation(line).does_nothing, line)

    def test_what_goes_on(self) -> None:
        for line in ("f n (Write t ∷ more) = f n more", "f n (Write t ∷ more) each = (tt, f n more each)"):
            self.assertEqual((equation(line).goes_on, equation(line).is_idle, equation(line).does_nothing), (True, False, True), line)
        for line in ("f n (Write t ∷ more) = t ∷ f n more", "f n (Write t ∷ more) = f (suc n) more", "f n (Write t ∷ more) = g n more"):
            self.assertFalse(equation(line).does_nothing, line)

    def test_what_holds_by_computing(self) -> None:
        self.assertTrue(equation("f (Write t) = refl").is_computed)
        self.assertFalse(equation("f (Write t) = ap f refl").does_nothing)


class OfCode(unittest.TestCase):
    def test_patterns_that_name_one(self) -> None:
        self.assertEqual(Counter(arms("Entry", CODE)), Counter(
            [("of", name) for name in ("Write", "Done", "Check", "Batch")] + [("more", name) for name in ("Est", "Share", "Back", "Check")]))
        self.assertEqual(list(arms("Row", CODE)), [])

    def test_how_a_file_calls_a_type(self) -> None:
        for line, known in (("use low::Entry;", {"Entry"}), ("pub(crate) use low::{Row, entry::Entry as Told};", {"Told"}),
                            ("use low::{\n    Row,\n    Entry,\n};", {"Entry"}), ("use crate::Entry;", set()), ("use other::Entry;", set()),
                            ("use low::Entry as Told;\n    use low::Entry;", {"Told", "Entry"}), ("ghost use low::Entry;", set()),
                            ("use low::{EntryEnd, Entry::Write};", set())):
            self.assertEqual(known_as("Entry", "low", "high", line), known, line)
        self.assertEqual(known_as("Entry", "low", "low", "use super::entry::Entry;"), {"Entry"})


BODY = "".join(f"    let a{at} = {at};\n" for at in range(41))
CLAUSES = "".join(f"    ensures of_{at} {{ a ≡ {at} }}\n" for at in range(16))
TYPES_HERE = {
    "wbt_journal/src/entry.rt": "pub enum Entry {\n    /// One.\n    Write {\n        task: u32,\n    },\n    Done(u32),\n}\n",
    "wbt_audit_walk/src/act.rt": "pub enum Act<'a> {\n    Check(&'a u32),\n}\n\npub enum Other<'a> {\n    Many,\n}\n",
    "wbt_grant/src/who.rt": "pub enum StepKind {\n    Add,\n}\n",
    "wbt_journal/specs/Told.antt": "-- told\npub data Told : Type 0 where\n  wrote : (task : ℕ) → Told\n  done : Told\n\n"
                                   "f (wrote t) = 1\nf done = []\n",
    "wbt_grant/specs/Kinds.antt": "pub data Step : Type 0 where\n  -- a step\n  add : Step\n",
    "top/specs/Lib.antt": "use Rattle.wbt_journal.specs.declared.entry.Entry.TheVariants as entry\ng (entry.Write t) = tt\n",
    "top/src/lib.rt": "use wbt_journal::Entry;\n\n"
                      "pub fn of(it: Entry) -> u32 {\n    match it {\n        Entry::Write { .. } => 1,\n        Entry::Done(_) => 2,\n    }\n}\n\n"
                      f"fn long() {{\n{BODY}}}\n\npub fn many()\n{CLAUSES}{{\n    long();\n}}\n",
    "wbt_replay_tests/src/lib.rt": f"fn long() {{\n{BODY}}}\n",
}
"""Files of a repository, by their paths from crates/ on."""


class OfARepository(WithDirectory):
    def setUp(self) -> None:
        super().setUp()
        crates = sorted({it.crate for it in TYPES} | {"top", "wbt_replay_tests"})
        self.file("crates.txt", "".join(f"{crate}:\n" for crate in crates))
        written = {f"{crate}/src/lib.rt": "" for crate in crates}
        for it in TYPES:
            path = f"{it.crate}/{it.file}"
            written[path] = written.get(path, "") + (f"pub enum {it.name} {{\n    One,\n}}\n" if it.is_enum else "")
        for path, text in (written | TYPES_HERE).items():
            whole_path = os.path.join(self.directory, "crates", path)
            os.makedirs(os.path.dirname(whole_path), exist_ok=True)
            with open(whole_path, "w", encoding="utf-8") as file:
                file.write(text)

    def test_the_kinds_of_each(self) -> None:
        self.assertEqual({(it.name, it.crate): it.kinds(self.directory) for it in TYPES if it.kinds(self.directory) != ["One"]}, {
            ("Entry", "wbt_journal"): ["Write", "Done"], ("Told", "wbt_journal"): ["wrote", "done"], ("Act", "wbt_audit_walk"): ["Check"],
            ("StepKind", "wbt_grant"): ["Add"], ("Step", "wbt_grant"): ["add"]})
        with self.assertRaisesRegex(ValueError, "there is no type Entry with kinds in top/src/lib.rt"):
            Type("entry", "Entry", "top", "src/lib.rt").kinds(self.directory)

    def test_what_each_crate_has(self) -> None:
        found = {it.name: crates for it, crates in counts(self.directory).items() if it.of == "entry" or crates}
        self.assertEqual({name: list(crates) for name, crates in found.items()}, {"Entry": ["top"], "Told": ["wbt_journal"], "Act": []})
        entry, told = found["Entry"]["top"], found["Told"]["wbt_journal"]
        self.assertEqual((entry.equations, entry.idle, entry.named, entry.arms), (1, 1, {"Write": 1}, {"Write": 1, "Done": 1}))
        self.assertEqual(entry.of_all(["Write", "Done"]), ([], ["top/src/lib.rt of"]))
        self.assertEqual((told.equations, told.idle, told.named, told.nothing), (2, 1, {"wrote": 1, "done": 1}, {"done": 1}))

    def test_what_is_printed(self) -> None:
        self.assertEqual(tables(self.directory)[:12], [
            "Entry of wbt_journal: 2 kinds",
            "     equations  of a kind  do nothing  of a kind  idle  go on  refl  patterns  of a kind  functions",
            "top          1        0.5           1        0.5     1      0     0         2          1          1",
            "all          1        0.5           1        0.5     1      0     0         2          1          1",
            "with rows for all kinds:",
            "  top/src/lib.rt of",
            "",
            "Told of wbt_journal: 2 kinds",
            "             equations  of a kind  do nothing  of a kind  idle  go on  refl",
            "wbt_journal          2          1           1        0.5     1      0     0",
            "all                  2          1           1        0.5     1      0     0",
            "with rows for all kinds:"])
        self.assertEqual(tables(self.directory)[12], "  wbt_journal/specs/Told.antt f")

    def test_what_is_printed_of_all_crates(self) -> None:
        self.assertEqual([" ".join(line.split()) for line in summary(self.directory)[:3]], [
            "a kind of type kinds equations do nothing tables patterns functions for all",
            "entry Entry of wbt_journal 2 0.5 0.5 0 1 1 1",
            "entry Told of wbt_journal 2 1 0.5 1 - - -"])

    def test_how_large_it_is(self) -> None:
        self.assertEqual(long_bodies(self.directory), ["top::long: 41 lines"])
        self.assertEqual(many_clauses(self.directory), ["top::many: 16 clauses"])
        self.assertEqual(without_comment(self.directory), {"wbt_grant": 1})
        self.assertEqual((lines(self.directory)["top"], lines(self.directory)["wbt_replay_tests"]), (2 + 2 + 7 + 44 + 20, 43))
        self.assertEqual(sizes(self.directory)[1:], [
            "bodies above 40 lines: 1", "public calls with more than 15 clauses: 1", "definitions without a comment: 1, in 1 crates"])
        self.assertEqual(sizes_by_name(self.directory), ["bodies:", "  top::long: 41 lines", "clauses:", "  top::many: 16 clauses",
                                                         "without a comment:", "  wbt_grant: 1"])


LISTS = {"entry": "An entry of a CPU's part", "step": "A kind of step", "line of a trace": "A line of a trace, or a setting",
         "item of a turn": "An item of a turn of a replay, a step or a silent move, of a CPU or of the timer"}
"""What CONTRIBUTING.md calls them, where it has a list of their places."""
BY_CRATE = ("Action", "Order")
"""Types of which the list says by which crates they are taken apart, or that replays do."""


class OfThisRepository(unittest.TestCase):
    def listed(self, of: str) -> str:
        """The places of a new kind, by CONTRIBUTING.md."""
        with open(os.path.join(ROOT, "docs", "CONTRIBUTING.md"), encoding="utf-8") as file:
            found = file.read().partition(f"\n{LISTS[of]}:\n\n")[2].partition("\n\n")[0]
        self.assertTrue(found, of)
        return found

    def test_each_type_has_kinds(self) -> None:
        for it, crates in counts(ROOT).items():
            self.assertGreater(len(it.kinds(ROOT)), 1, it)
            self.assertLessEqual(set(whole(crates).named), set(it.kinds(ROOT)), it)
            self.assertLessEqual(set(whole(crates).arms), set(it.kinds(ROOT)), it)
            self.assertTrue(whole(crates).named, it)

    def test_each_kind_of_code_is_told_in_its_own_crate(self) -> None:
        for it, crates in counts(ROOT).items():
            if it.name in ("Entry", "StepKind"):
                self.assertEqual(set(crates["wbt_journal"].arms), set(it.kinds(ROOT)), it.name)

    def test_each_place_of_all_kinds_is_in_the_list(self) -> None:
        for it, crates in counts(ROOT).items():
            listed = self.listed(it.of) if it.of in LISTS and it.name not in BY_CRATE else None
            for crate, count in crates.items() if listed else ():
                for place in (place for places in count.of_all(it.kinds(ROOT)) for place in places):
                    path = place.split(" ")[0]
                    self.assertIn(crate, listed or "", f"{it.name} in {place}")
                    ways = (os.path.basename(path), f"{os.path.basename(os.path.dirname(path))}/`")
                    self.assertTrue(any(way in (listed or "") for way in ways), f"{it.name} in {place}")

    def test_the_program(self) -> None:
        done = self.map()
        self.assertEqual((done.returncode, done.stderr), (0, ""))
        self.assertEqual(done.stdout.splitlines(), [*summary(ROOT), "", *sizes(ROOT)])
        self.assertEqual(self.map("--other").returncode, 1)

    def map(self, *words: str) -> subprocess.CompletedProcess[str]:
        """What `tools/map --kinds` does with these words."""
        return subprocess.run([sys.executable, os.path.join(TOOLS, "map"), "--kinds", *words], capture_output=True, text=True, check=False)


if __name__ == "__main__":
    unittest.main()
