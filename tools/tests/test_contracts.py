"""What is read of a crate's contracts, and what is printed of them: on a small repository that a test makes."""
from __future__ import annotations

import os
import tempfile
import unittest

from contracts.block import block, differs, put_block
from contracts.documents import claims_problems, map_problems
from contracts.tables import House

LIBRARY = '''\
//! Boxes, and what is
//! in them.
//!
//! More of them.
#![tactic(auto)]

mod inner;
pub mod laws;

pub use inner::{Shape, Sized, open as open_box};
'''

INNER = '''\
//! Boxes.

ghost use Rattle.std.specs.Prelude.{◌≡◌};

/// A box.
#[derive(Clone, Copy)]
pub struct Shape {
    pub wide: u64,
}

pub trait Sized {
    /// How wide it is.
    fn wide(&self) -> u64
        ensures { width self.now ≡ result };
}

impl Sized for Shape {
    fn wide(&self) -> u64
        // As it is said.
        ensures said { result ≡ self.now.wide }
        ensures { width self.now ≡ result }
    {
        self.wide
    }
}

impl<T: Copy> Shape {
    /// Opens it: see `{`.
    pub fn open(
        &self,
        at: u64,
    ) -> Result<u64, Full>
        requires there { at < 3 }
        ensures value { result ≡ opened self.now }

        // It stays, whatever
        // was in it.
        ensures stays { self.new ≡ self.old }
        ensures full { (result : _)
            → result }
        ensures alone { result < 7 }
    {
        let brace = '{';
        Ok(self.wide)
    }

    pub(crate) fn hidden(&self) -> u64
        ensures { result ≡ 1 }
    {
        1
    }
}

// Not seen.
pub fn unseen() -> u64
    ensures { result ≡ 2 }
{
    2
}

/// Opens a box.
pub fn open(shape: &Shape) -> u64
    ensures wide { result ≡ 3 }
{
    3
}

#[cfg(test)]
mod tests {
    #[test]
    pub fn tested(rt: HostRuntime)
        ensures { no }
    {}
}
'''

LAWS = '''\
//! Laws.

/// Boxes are wide.
pub fn boxes_are_wide()
    ensures { Wide }
{}
'''

SPECS = '''\
-- Boxes.
use Rattle.low.specs.Words.{Told}

-- it is whole
pub record IsWhole (n : ℕ) : Type 0 where
  pub low : Told n
  -- it isn't empty
  pub some : 1 ≤ n
  pub wide : (a : ℕ) → a < n
      → a < n + 1

abbrev pub Answers : (answer : Turn) → Type 0
Answers Open = ⊤
Answers other = ⊥
'''

LOW = '''\
pub record Told (n : ℕ) : Type 0 where
  pub line : n ≡ 3
'''


class Contracts(unittest.TestCase):
    def setUp(self) -> None:
        folder = tempfile.TemporaryDirectory()
        self.addCleanup(folder.cleanup)
        self.root = folder.name
        self.put("crates.txt", "# Crates.\nlow:\nboxes: low std_thing\n")
        self.put("crates/low/src/lib.rt", "//! What is low.\n")
        self.put("crates/low/specs/Words.antt", LOW)
        self.put("crates/boxes/src/lib.rt", LIBRARY)
        self.put("crates/boxes/src/inner.rt", INNER)
        self.put("crates/boxes/src/laws.rt", LAWS)
        self.put("crates/boxes/specs/Whole.antt", SPECS)
        self.put("crates/boxes/must-fail/opens_twice.edit", "")
        self.put("crates/boxes/mutants/opens_never.edit", "")
        self.put("crates/boxes/mutants/opens_another.edit", "")

    def put(self, path: str, text: str) -> None:
        path = os.path.join(self.root, path)
        os.makedirs(os.path.dirname(path), exist_ok=True)
        with open(path, "w", encoding="utf-8") as file:
            file.write(text)

    def house(self, sentences: str = "") -> House:
        self.put("docs/clauses.txt", sentences)
        return House(self.root)

    def rows(self, sentences: str = "") -> list[str]:
        house = self.house(sentences)
        self.assertEqual(house.wrong, [])
        return [line for line in house.lines() if line.startswith("| ") and "What it says" not in line]

    def test_public_calls_with_their_clauses_and_comments(self) -> None:
        self.assertEqual(self.rows()[:8], [
            "| `Sized::wide` | | How wide it is. |",
            "| `Shape::wide`, as `Sized` | `said` | As it is said. |",
            "| `Shape::open` | `value` | Opens it: see `{`. *Requires* `at < 3`. |",
            "| | `stays`, `full`, `alone` | It stays, whatever was in it. |",
            "| `open_box` | `wide` | Opens a box. |",
            "| `laws::boxes_are_wide` | | Boxes are wide. |",
            "| Crate | Tried by the gate | Mutants |",
            "| `boxes` | `opens_twice` | 2 |",
        ])

    def test_the_crate_says_what_it_is(self) -> None:
        self.assertIn("Boxes, and what is in them.", list(self.house().lines()))

    def test_a_sentence_tells_more_than_the_comment_above_several_clauses(self) -> None:
        rows = self.rows("# A comment.\nboxes::Shape::open full, alone: It may be full.\nboxes::open_box: At once.\n")
        self.assertIn("| | `stays` | It stays, whatever was in it. |", rows)
        self.assertIn("| | `full`, `alone` | It may be full. |", rows)
        self.assertIn("| `open_box` | `wide` | Opens a box. At once. |", rows)

    def test_a_sentence_may_speak_of_a_call_that_callers_do_not_see(self) -> None:
        self.assertIn("| `inner::unseen` | | Not seen. It is two. |", self.rows("boxes::inner::unseen: It is two.\n"))

    def test_definitions_with_their_parts(self) -> None:
        rows = self.rows("boxes::IsWhole low.line: Three is told.\nboxes::IsWhole wide: Wide.\nboxes::Answers Open: It opens.\n")
        first = rows.index("| `IsWhole` of `specs/Whole.antt` | `low.line` | Three is told. |")
        self.assertEqual(rows[first + 1:first + 4], [
            "| | `some` | It isn't empty. |",
            "| | `wide` | Wide. |",
            "| `Answers` of `specs/Whole.antt` | `Open` | It opens. |",
        ])

    def test_what_is_not_there_is_told_by_name(self) -> None:
        house = self.house("boxes::Shape::close; boxes::Shape::open shut; boxes::IsWhole low.none; bags::open: No.\n"
                           "boxes::Answers Shut: None.\n\n\n\nno sentence\nboxes::open_box wide: One.\nboxes::open_box wide: Two.\n")
        self.assertEqual(house.wrong, [
            "line 6 is no sentence: no sentence",
            "boxes::Shape::close: there is no such call or definition",
            "boxes::Shape::open shut: the call has no clause shut",
            "boxes::IsWhole low.none: the definition has no low.none",
            "bags::open: there is no such crate",
            "boxes::Answers Shut: the definition has no Shut",
            "boxes::open_box wide: wide has two sentences",
        ])

    def test_a_sentence_of_several_calls_stands_once(self) -> None:
        rows = self.rows("boxes::Shape::open full; boxes::open_box wide: What was in it is there still, and nothing else is.\n")
        self.assertIn("| | `full` | As `open_box`, `wide`. |", rows)
        self.assertIn("| | `wide` | What was in it is there still, and nothing else is. |", rows)
        house = self.house("boxes::Shape::open full: It stays.\nboxes::open_box wide: It stays.\n")
        self.assertEqual(house.wrong, ["line 2 has the sentence of line 1: It stays."])

    def test_a_part_of_a_text_is_named_where_a_row_before_it_has_it(self) -> None:
        rows = self.rows("boxes::Shape::open full: What was in it is there still.\n"
                         "boxes::open_box wide: What was in it is there still. It is wide.\n")
        self.assertIn("| | `wide` | As `Shape::open`, `full`. It is wide. |", rows)

    def test_a_sentence_of_the_call_speaks_for_its_clause(self) -> None:
        self.assertIn("| `open_box` | `wide` | Opens a box. |", self.rows("boxes::open_box wide: Opens a box.\n"))

    def test_a_call_in_another_crate_is_named_with_a_link(self) -> None:
        self.put("crates/low/src/lib.rt", "//! What is low.\n\n/// Opens whatever is closed.\npub fn open_any()\n    ensures told { A }\n{}\n")
        self.assertIn("| `laws::same` | `told` | As [`low::open_any`](#low), `told`. |", self.with_law(
            "/// Opens whatever is closed.\npub fn same()\n    ensures told { A }\n{}\n"))

    def with_law(self, law: str) -> list[str]:
        self.put("crates/boxes/src/laws.rt", "//! Laws.\n\nghost use Rattle.low.specs.Words.{Told};\n\n" + law)
        return self.rows()

    def test_what_a_call_requires_stands_in_words_or_as_it_is(self) -> None:
        rows = self.with_law("/// Two.\n///\n/// Requires: one that\n/// is there.\npub fn two(n: u64)\n    requires { Told n }\n{}\n\n"
                             "/// Three.\npub fn three(n: u64)\n    requires { n < 3\n        × n < 4 }\n    requires told { Told n }\n"
                             "    ensures { A }\n{}\n")
        self.assertIn("| `laws::three` | | Three. *Requires* `n < 3 × n < 4`; `Told n`. |", rows)

    def test_a_long_precondition_is_named_by_its_definitions(self) -> None:
        self.put("crates/low/specs/Words.antt", "-- a word that was told\n" + LOW)
        rows = self.with_law("/// Two.\npub fn two(n: u64)\n    requires { Told " + "n " * 40 + "}\n    ensures { A }\n{}\n")
        self.assertIn("| `laws::two` | | Two. *Requires* [`Told`](#low). |", rows)
        self.assertIn("| `Told` of `specs/Words.antt` | | A word that was told. |", rows)

    def test_clauses_without_a_sentence_are_counted(self) -> None:
        self.put("crates/boxes/src/laws.rt", LAWS + "\npub fn more()\n    ensures one { A }\n    ensures two { B }\n{}\n")
        self.assertEqual(self.house().missing(), ["boxes::laws::more one", "boxes::laws::more two"])

    def test_an_export_for_c_is_a_call(self) -> None:
        self.put("crates/boxes/src/laws.rt", '/// For C.\n#[unsafe(no_mangle)]\npub extern "C" fn out()\n    ensures told { A }\n{}\n')
        self.assertIn("| `laws::out` | `told` | For C. |", self.rows())

    def test_a_program_without_public_modules_shows_what_its_modules_show(self) -> None:
        self.put("crates.txt", "low:\nboxes: low\ntool:\n")
        self.put("crates/tool/src/main.rt", "//! A tool.\n\nmod work;\n\nfn main() {}\n")
        self.put("crates/tool/src/work.rt", "/// Works.\npub fn work()\n    ensures { Done }\n{}\n")
        self.assertIn("| `work::work` | | Works. |", self.rows())
        self.put("crates/tool/src/main.rt", "//! A tool.\n\nmod work;\npub mod more;\n\nfn main() {}\n")
        self.put("crates/tool/src/more.rt", "use super::work;\n\n/// Works more.\npub fn more()\n    ensures { Done }\n{}\n")
        rows = self.rows()
        self.assertIn("| `more::more` | | Works more. |", rows)
        self.assertNotIn("| `work::work` | | Works. |", rows)

    def test_the_comment_of_a_definition_speaks_for_a_clause_that_is_no_more(self) -> None:
        self.put("crates/boxes/src/laws.rt", "//! Laws.\n\n/// Two.\npub fn two()\n    ensures one { IsWhole }\n    ensures other { IsWhole 3 }\n{}\n")
        rows = self.rows()
        first = rows.index("| `laws::two` | `other` | Two. |")
        self.assertEqual(rows[first + 1], "| | `one` | It is whole. |")

    def test_the_calls_that_claims_name(self) -> None:
        self.put("docs/CLAIMS.md", "It opens [`boxes::Shape::{open, shut}`, `boxes_are_wide`,\n`boxes::laws`, `low`, `boxes::open_box`].\n\n"
                                   "It is wide [`boxes::inner::unseen`, `no_law`], and [a link](#x).\n")
        self.assertEqual(claims_problems(self.root, self.house()), [
            "docs/CLAIMS.md: there is no call boxes::Shape::shut",
            "docs/CLAIMS.md: there is no call no_law",
        ])

    def test_the_rows_of_the_map(self) -> None:
        table = "## The crates\n\n| Crate | What it is |\n|---|---|\n{}\n## Glossary\n\n| `none` | none |\n"
        self.put("docs/MAP.md", table.format("| `low` | low |\n| `boxes` | boxes |\n"))
        self.assertEqual(map_problems(self.root), [])
        self.put("docs/MAP.md", table.format("| `boxes` | boxes |\n| `low` | low |\n| `bags` | bags |\n"))
        self.assertEqual(map_problems(self.root), ["docs/MAP.md: a row for bags, which is no crate", "docs/MAP.md: boxes above low, on which it depends"])
        self.put("docs/MAP.md", table.format("| `boxes` | boxes |\n| `boxes` | boxes |\n"))
        self.assertEqual(map_problems(self.root), ["docs/MAP.md: no rows for low", "docs/MAP.md: 2 rows for boxes"])

    def test_a_document_takes_what_is_printed(self) -> None:
        self.put("docs/PAGE.md", "Before.\n\n<!-- tools/x prints this -->\nold\n<!-- to here -->\n\nAfter.\n")
        page = os.path.join(self.root, "docs", "PAGE.md")
        put_block(page, "tools/x", ["one", "", "two"])
        self.assertEqual(block(page, "tools/x"), ["one", "", "two"])
        self.assertEqual(differs(page, "tools/x", ["one", "", "two"]), "")
        self.assertEqual(differs(page, "tools/x", ["one", "", "three"]), "tools/x prints something else from its line 3 on: three")
        self.assertEqual(differs(page, "tools/x", ["one", ""]), "tools/x prints something else from its line 3 on: nothing")
        self.assertEqual(differs(page, "tools/x --y", ["one"]), "it has no part that tools/x --y prints")
        with open(page, encoding="utf-8") as file:
            self.assertEqual(file.read(), "Before.\n\n<!-- tools/x prints this -->\n\none\n\ntwo\n\n<!-- to here -->\n\nAfter.\n")
        put_block(page, "tools/x", ["```", "one", "```"])
        self.assertEqual(differs(page, "tools/x", ["one"]), "")


if __name__ == "__main__":
    unittest.main()
