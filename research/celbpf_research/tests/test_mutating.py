"""Changes of definitions: what they are, what they need, and how a check of them is judged."""

import tempfile
import unittest
from pathlib import Path

from celbpf_tools.definitions import Module

from ..mutating import known
from ..mutating.above import below, check, dependencies, kit
from ..mutating.change import Change
from ..mutating.changes import groups, of_definition
from ..mutating.drawing import Drawn, drawn
from ..mutating.pins import is_rows, paths, pins
from ..mutating.trying import lines_of, with_imports
from ..mutating.types import parts
from ..mutating.verdicts import decided, judged

TEXT = """use Rattle.std.specs.Prelude.{ℕ, nat_lt, true, false}
use Rattle.a.specs.declared.kind.Kind.TheVariants.{Near, Far}
use Rattle.a.specs.declared.size.Size.TheVariants as size

-- a sentence with 7 < 8 in it
abbrev pub chosen : Kind → ℕ → ℕ
chosen Near n = if nat_lt n 2 then 0 else 1
chosen Far n = add n m + 1
chosen _ k = 3

pub data Kind : Type 0 where
  one : size.B < size.W → Kind
"""
LAWS = """/// Rows.
#[tactic(auto)]
pub fn rows_stand()
    ensures { RowsHold }
{}

/// A law.
pub fn one_answer()
    ensures first { A }
    ensures second { B }
{
    rows_stand();
}

/// Takes something, and so is no law.
pub fn taken(n: u64)
    ensures { C }
{}
"""


TYPES = """pub data Ends (p : Policy) : Result -> Type 0 where
  -- a comment is no case
  refused : (e : Error) → Reads p e
      → (A → B) → Ends p (Err e)
  taken : Ends p Ok

pub record IsTaken (a : Tree) : Type 0 where
  pub reads : ReadsTree a
  pub judged : judge a
      ≡ Ok a
"""
CHAIN = """abbrev pub first : ℕ → ℕ
first n =
    if n == 3 then 0
    else (if n == 4 then 1
    else (if nat_lt n 9 && is_odd n then 2
    else (if is_even n then 4
    else 5)))
first m = has m × (is m ≡ 2) × rest
"""
SPECS = """use Rattle.b.specs.Below.{deep}

abbrev pub chosen : ℕ
chosen = deep

abbrev pub other : ℕ
other = 2
"""
PINS = """ghost use Rattle.a.specs.Above.{chosen as picked, other};

pub fn rows_stand()
    ensures { picked ≡ 1 }
{}

pub fn a_law()
    ensures { other ≡ 2 }
{}
"""


def changed(size: int = 4) -> dict[str, list[str]]:
    """The changes of the function above by kind: their new lines, joined."""
    found: dict[str, list[str]] = {}
    for change in of_definition(TEXT, 6, size, "chosen"):
        found.setdefault(change.kind, []).append("\n".join(change.new))
    return found


class Changes(unittest.TestCase):
    def test_numbers_words_and_branches(self) -> None:
        found = changed()
        self.assertIn("chosen Near n = if nat_lt n 3 then 0 else 1", found["number"])
        self.assertIn("chosen Near n = if nat_lt n 1 then 0 else 1", found["number"])
        self.assertEqual(found["order"], ["chosen Near n = if nat_le n 2 then 0 else 1"])
        self.assertEqual(found["branches"], ["chosen Near n = if nat_lt n 2 then 1 else 0"])
        self.assertEqual(found["arithmetic"], ["chosen Far n = add n m - 1"])
        self.assertEqual(found["arguments"], ["chosen Far n = add m n + 1"])

    def test_clauses(self) -> None:
        found = changed()
        self.assertEqual(found["case"], ["", ""])
        self.assertIn("chosen Near n = add n m + 1\nchosen Far n = if nat_lt n 2 then 0 else 1", found["results"])
        self.assertIn("chosen Far n = 3\nchosen _ k = 3", found["merge"])
        self.assertFalse([new for new in found["merge"] if "chosen _ k = add" in new], "n has no value there")

    def test_no_change_says_the_same_or_touches_the_head(self) -> None:
        for change in of_definition(TEXT, 6, 4, "chosen"):
            self.assertNotEqual(change.old, change.new)
            self.assertGreater(change.place, 6)

    def test_variants_of_a_file(self) -> None:
        self.assertEqual(groups(TEXT), [["Near", "Far"], ["size.B", "size.W"]])
        text = TEXT.replace("= 3", "= kind Near")
        new = ["\n".join(one.new) for one in of_definition(text, 6, 4, "chosen") if one.kind == "variant"]
        self.assertEqual(new, ["chosen _ k = kind Far"])

    def test_a_text_literal_keeps_its_digits(self) -> None:
        text = 'abbrev pub word : List\nword = codes "a1" ++ 10\n'
        self.assertEqual([one.new for one in of_definition(text, 1, 2, "word") if one.kind == "number"], [('word = codes "a1" ++ 11',), ('word = codes "a1" ++ 9',)])

    def test_a_type_loses_a_case_a_premise_or_a_field(self) -> None:
        found = of_definition(TYPES, 1, 5, "Ends")
        self.assertEqual([one.kind for one in found], ["case", "premise", "premise", "case"])
        self.assertEqual(found[0].old, ("  refused : (e : Error) → Reads p e", "      → (A → B) → Ends p (Err e)"))
        self.assertEqual(found[1].new, ("  refused : (e : Error) → (A → B) → Ends p (Err e)",))
        self.assertEqual(found[2].new, ("  refused : (e : Error) → Reads p e → Ends p (Err e)",))
        fields = of_definition(TYPES, 7, 4, "IsTaken")
        self.assertEqual([(one.kind, one.place, len(one.old), one.new) for one in fields], [("field", 8, 1, ()), ("field", 9, 2, ())])

    def test_what_stands_between_signs_in_no_bracket(self) -> None:
        self.assertEqual(parts("(a → b) → {c : d → e} → f", "→"), ["(a → b)", "{c : d → e}", "f"])

    def test_tests_in_another_order(self) -> None:
        found = [one.new for one in of_definition(CHAIN, 1, 7, "first") if one.kind == "tests"]
        self.assertNotIn(("    if n == 4 then 1", "    else (if n == 3 then 0"), found, "no number is both")
        self.assertIn(("    else (if is_even n then 4", "    else (if nat_lt n 9 && is_odd n then 2"), found)

    def test_a_part_is_left_out(self) -> None:
        found = [one.new[0].strip() for one in of_definition(CHAIN, 1, 8, "first") if one.kind == "part"]
        self.assertIn("else (if is_odd n then 2", found)
        self.assertIn("else (if nat_lt n 9 then 2", found)
        self.assertIn("first m = (is m ≡ 2) × rest", found)
        self.assertIn("first m = has m × (is m ≡ 2)", found)

    def test_a_change_is_told_without_its_place(self) -> None:
        told = [Drawn("a/specs/B.antt", "b", Change("number", place, ("  b = 1",), ("  b = 2",))).told for place in (2, 9)]
        self.assertEqual(told, ["a/specs/B.antt b number: b = 1 => b = 2"] * 2)
        self.assertTrue(Drawn("a/specs/B.antt", "b", Change("case", 2, ("  b = 1",), ())).told.endswith("b = 1 => (left out)"))

    def test_the_same_changes_come_from_a_seed_and_none_twice(self) -> None:
        left = {("a/specs/B.antt", name): of_definition(TEXT, 6, 4, "chosen") for name in ("one", "other")}
        first, second = (list(drawn(left, seed)) for seed in (3, 3))
        self.assertEqual(first, second)
        self.assertEqual(len(set(first)), len(first))
        self.assertEqual(len(first), 2 * len(left["a/specs/B.antt", "one"]))
        self.assertNotEqual(first, list(drawn(left, 4)))

    def test_applied(self) -> None:
        change = Change("number", 2, ("b = 1",), ("b = 2",))
        self.assertEqual(change.applied("a\nb = 1\nc"), "a\nb = 2\nc")
        with self.assertRaises(ValueError):
            change.applied("b = 1\na")

    def test_imports_that_a_change_needs(self) -> None:
        new = with_imports(TEXT, ("chosen Near n = if nat_le n 2 then true else 1",))
        self.assertIn("use Rattle.std.specs.Prelude.{nat_le}\n", new)
        self.assertNotIn("Prelude.{true}\n", new)


class Trying(unittest.TestCase):
    def test_pins_of_a_crate(self) -> None:
        with tempfile.TemporaryDirectory() as folder:
            (Path(folder) / "src").mkdir()
            (Path(folder) / "src" / "laws.rt").write_text(LAWS)
            self.assertEqual(paths(Path(folder)), ["laws::rows_stand", "laws::one_answer"])
        self.assertTrue(is_rows("laws::rows_stand"))
        self.assertFalse(is_rows("laws::one_answer"))

    def test_what_rows_and_laws_rest_on(self) -> None:
        with tempfile.TemporaryDirectory() as folder:
            crate = Path(folder) / "a"
            for path, text in (("src/rows.rt", PINS), ("specs/Above.antt", SPECS), ("../b/specs/Below.antt", "abbrev pub deep : ℕ\ndeep = 1\n")):
                (crate / path).parent.mkdir(parents=True, exist_ok=True)
                (crate / path).write_text(text)
            read = {it.name: it for it in (Module(path, Path(folder)) for path in Path(folder).glob("*/specs/*.antt"))}
            rows, law = pins(read, crate)
        self.assertEqual((rows.crate, rows.path, rows.is_rows, law.is_rows), ("a", "rows::rows_stand", True, False))
        self.assertEqual(rows.rests_on, {("Rattle.a.specs.Above", "chosen"), ("Rattle.b.specs.Below", "deep")})
        self.assertEqual(law.rests_on, {("Rattle.a.specs.Above", "other")})

    def test_crates_of_a_copy(self) -> None:
        with tempfile.TemporaryDirectory() as folder:
            (Path(folder) / "crates.txt").write_text("# a line\na:\nb: a kit\nc: b a\nd: a\n")
            of = dependencies(Path(folder))
            self.assertEqual(below(of, "c"), ["a", "b"])
            self.assertEqual(lines_of(Path(folder), ["a", "b"]), ["a:\n", "b: a kit\n"])
            words = check(of, "c", Path("/x"), Path("/kept"), ["rows::rows_stand"])
        self.assertIn("b:core,std,a,kit=/x/b/src/lib.rt", words)
        self.assertEqual([word for word in words if word.startswith("kit=")], [f"kit={kit()}/rlibs/kit.rlib"])
        self.assertEqual(words[-2:], ["--only", "rows::rows_stand"])

    def test_what_a_check_comes_to(self) -> None:
        proved = "fn a::laws::rows_stand: proved\nfn a::laws::one_answer: proved\n"
        self.assertEqual(judged(proved, 0).verdict, "survived")
        killed = judged("fn a::laws::rows_stand: no proof: x\nfn a::laws::one_answer: proved\n", 1)
        self.assertEqual((killed.verdict, killed.rows, killed.laws), ("killed", ["laws::rows_stand"], []))
        self.assertEqual(judged("specs/Words.antt:3:4: error: no such name\n" + proved, 1).verdict, "ill-typed")
        self.assertEqual(judged("", 1).verdict, "no answer")

    def test_a_law_that_is_not_proved_decides_where_it_is_known_to_be_false(self) -> None:
        outcome = judged("fn a::laws::rows_stand: proved\nfn a::laws::one_answer: no proof: x\n", 1)
        self.assertEqual((outcome.verdict, outcome.laws), ("undecided", ["laws::one_answer"]))
        self.assertEqual(decided(outcome, "").verdict, "undecided")
        self.assertEqual(decided(outcome, "two answers").verdict, "killed")
        self.assertEqual(decided(judged("fn a::laws::one_answer: proved\n", 0), "two answers").verdict, "survived")

    def test_known_changes(self) -> None:
        with tempfile.TemporaryDirectory() as folder:
            path = Path(folder) / "known"
            self.assertEqual(known.read(path), {})
            path.write_text("# why -- not\na/specs/B.antt b number: b = 1 => b = 2 -- no byte is above 255\n")
            self.assertEqual(known.read(path), {"a/specs/B.antt b number: b = 1 => b = 2": "no byte is above 255"})
