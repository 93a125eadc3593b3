"""Definitions that are computed: how they are read, what their values are, and what rows say of a change."""

import sys
import tempfile
import unittest
from pathlib import Path
from typing import Any

from ..computing.deciding import is_true
from ..computing.names import Names
from ..computing.program import Program
from ..computing.rows import Rows
from ..computing.sources import items, parameters
from ..computing.syntax import STRENGTHS, Reader
from ..computing.tokens import Token, meant, tokens, without_comment
from ..computing.values import Unknown, elements, force

SPECS = """use Rattle.std.specs.Prelude.{ℕ, ◌+◌, ◌-◌, ◌≡◌, true, false, List, [], ◌∷◌, ◌++◌, map, codes, nat_lt}
use Rattle.a.specs.declared.kind.Kind.TheVariants as kind

-- a sentence with "a text" in it
infixl 30 ◌and◌
abbrev pub ◌and◌ : ℕ → ℕ → ℕ
a and b = a + b + 1

pub data Shape : Type 0 where
  round : ℕ → Shape
  flat : Shape

abbrev pub size : Shape → ℕ
size (round n) = n
size flat = 0

-- the name of a later constructor is a variable here
abbrev pub kept : ℕ → ℕ
kept late = late

pub data Later : Type 0 where
  late : Later

abbrev pub count : List ℕ → ℕ
count [] = 0
count (x ∷ xs) = 1 + count xs

abbrev pub is_flat : Shape → Bool
is_flat s = elim s [ round ↦ false | flat ↦ true ]

abbrev pub first : {A : Type 0} → A → A → A
first a b = a

abbrev pub half : ℕ → ℕ
half zero = 0
half (suc zero) = 0
half (suc (suc n)) = half n + 1

abbrev pub name_of : kind.Kind → List ℕ
name_of kind.Near = codes "near"
name_of _ = codes "far\\n"

pub record Pair : Type 0 where
  pub left : ℕ
  pub right : ℕ

abbrev pub pair : Pair
pair = record { left = 1; right = 2 }

abbrev pub other : Pair
other = record pair {
  right = if nat_lt pair.left 2 then 7 else 8;
}

abbrev pub doubled : List ℕ
doubled = map (λ x. let y = x + x in y) (1 ∷ 2 ∷ [])

pub record RowsHold : Type 0 where
  pub sum : 1 and 2 and 3 ≡ 8
  pub size_of_round : size (round 5) ≡ 5
  pub no_size : size flat ≡ 0
  pub text : name_of kind.Near ++ name_of kind.Far ≡ codes "nearfar\\n"
  pub updated : other.left + other.right ≡ 8
  pub list : doubled ≡ 2 ∷ 4 ∷ []
  pub half_of_seven : half 7 ≡ 3
  pub of_three : count (1 ∷ 2 ∷ 3 ∷ []) ≡ 3
  pub unequal : kept 3 ≡ 4 → 1 ≡ 2
  pub flat_alone : is_flat flat ≡ true
  pub whatever : (n m : ℕ) → first 3 (n + m) ≡ 3
  pub for_all : (n : ℕ) → half n ≡ half n
  pub more : MoreRowsHold

pub record MoreRowsHold : Type 0 where
  pub of_none : count [] ≡ 0
"""
LAWS = """ghost use Rattle.a.specs.Shapes.{RowsHold, size, flat};
ghost use Rattle.std.specs.Prelude.{◌≡◌};

/// Rows.
pub fn rows_hold()
    ensures rows { RowsHold }
    ensures alone { size flat ≡ 0 }
{}
"""


class Reading(unittest.TestCase):
    def test_tokens(self) -> None:
        self.assertEqual(tokens('f (a.b).c 0x1f "x\\"y" λ x. x')[0], Token("name", "f"))
        self.assertEqual([it.value for it in tokens("(a.b).c.d 0x1f 1_0")], ["(", ("a", "b"), ")", "c", "d", 31, 10])
        self.assertEqual([it.value for it in tokens("λ (x : A). f x.b")], ["λ", "(", "x", ":", "A", ")", ".", "f", ("x", "b")])
        self.assertEqual(without_comment('f "--" -- a comment'), 'f "--"')
        self.assertEqual(meant("\\u{e9}\\x41\\n"), "éA\n")

    def test_expressions(self) -> None:
        def read(text: str) -> tuple[Any, ...]:
            return Reader(tokens(text), STRENGTHS).whole()

        self.assertEqual(read("a + b * c"), ("operator", "+", ("name", "a"), ("operator", "*", ("name", "b"), ("name", "c"))))
        self.assertEqual(read("f x {A} λ y. y"), ("apply", ("name", "f"), [("name", "x"), ("function", ["y"], ("name", "y"))]))
        self.assertEqual(read("(a, b)"), ("tuple", [("name", "a"), ("name", "b")]))
        self.assertEqual(read("(x y : A) → B"), ("all", ["x", "y"], ("name", "B")))
        cases = [(("name", "B"), ("name", "c")), (("name", "D"), ("name", "e"))]
        self.assertEqual(read("elim a [ B ↦ c | D ↦ e ]"), ("elim", ("name", "a"), cases))
        self.assertEqual(read("a → b"), ("implies", ("name", "a"), ("name", "b")))

    def test_items(self) -> None:
        self.assertEqual(list(items(["a =", "  b", "c = {", "}", ""], 0)), [["a =", "  b"], ["c = {", "}"]])
        self.assertEqual(parameters(tokens("{A : B} (x y : C) : D")), ["x", "y"])


class Computing(unittest.TestCase):
    def setUp(self) -> None:
        folder = tempfile.TemporaryDirectory()
        self.addCleanup(folder.cleanup)
        self.crates = Path(folder.name)
        for part, name, text in (("specs", "Shapes.antt", SPECS), ("src", "laws.rt", LAWS)):
            (self.crates / "a" / part).mkdir(parents=True)
            (self.crates / "a" / part / name).write_text(text, encoding="utf-8")
        (self.crates / "b" / "specs").mkdir(parents=True)
        (self.crates / "b" / "specs" / "Lib.antt").write_text("pub use Rattle.a.specs.Shapes\n", encoding="utf-8")

    def test_values(self) -> None:
        program = Program(Names(self.crates))
        found = program.value("Rattle.a.specs.Shapes", "doubled")
        self.assertEqual([force(it) for it in elements(found)], [2, 4])
        rows = program.value("Rattle.a.specs.Shapes", "RowsHold")
        self.assertEqual([is_true(it) for it in rows.parts], [True] * 11 + [None, True])
        self.assertRaises(Unknown, Program.unread("no reason"))
        passed = program.value("Rattle.b.specs.Shapes", "doubled")
        self.assertEqual([force(it) for it in elements(passed)], [2, 4])

    def test_rows(self) -> None:
        # the rows of all crates recurse deeply, which other tests must not
        self.addCleanup(sys.setrecursionlimit, sys.getrecursionlimit())
        rows = Rows(self.crates)
        for row in rows.all:
            rows.compute(row, 5)
        self.assertEqual([row.answer for row in rows.all], [True] * 11 + [None, True, True])
        size = ("Rattle.a.specs.Shapes", "size")
        changed, count = rows.against(size, "a", SPECS.replace("size flat = 0", "size flat = 1"), 5)
        self.assertEqual((changed and changed.told, count), ("a RowsHold.no_size", 3))
        self.assertEqual(rows.against(size, "a", SPECS, 5), (None, 3))
        late = rows.against(("Rattle.a.specs.Shapes", "half"), "a", SPECS.replace("half n + 1", "half n + 2"), 5)
        self.assertEqual(late[0] and late[0].told, "a RowsHold.half_of_seven")


if __name__ == "__main__":
    unittest.main()
