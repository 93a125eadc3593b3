"""Definitions of specs: head lines, names that two files define, and that the contracts that are counted are there."""

import tempfile
import unittest
from pathlib import Path
from typing import Any

from ..commands.belief import CONTRACTS, rests_on
from ..commands.defined_twice import places
from ..commands.definitions import files_of, head_of
from ..commands.definitions import places as declared
from ..definitions import CRATES, Module, modules

ONE = """-- a head
use Rattle.std.specs.Prelude.{ℕ, Option}
use Rattle.b.specs.Two.{Other}

-- a record; its field and its name's uses are no definitions
pub record Pair : Type 0 where
  pub Left : ℕ

abbrev pub Holds : ℕ → Type 0
Holds n = (m : ℕ) → Other m

pub data Answer : Type 0 where
  Pair : Answer
  Yes : Answer
"""
TWO = """abbrev mutual
  -- one of a block
  pub Holds : ℕ → Type 0
  Holds 0 = Unit {0}

  pub Other : ℕ → Type 0
  Other n = Holds n

pub data Kind : Type 0 where
  Yes : Kind
  Answer : Kind

pub small : ℕ
small = 1
"""


class Heads(unittest.TestCase):
    """What a file says first of itself."""

    def test_first_sentence(self) -> None:
        self.assertEqual(head_of("-- Words (RFC 9669, section 3), a\n-- line. And more.\nuse A\n"), "Words (RFC 9669, section 3), a line")

    def test_a_comment_below_the_names_is_no_head(self) -> None:
        self.assertEqual(head_of("use A\n\n-- a definition\n"), "")

    def test_files_without_the_root(self) -> None:
        with tempfile.TemporaryDirectory() as folder:
            for name, text in ("Lib.antt", "pub mod One\n"), ("One.antt", ONE), ("Deep/Two.antt", TWO):
                path = Path(folder) / name
                path.parent.mkdir(exist_ok=True)
                path.write_text(text)
            self.assertEqual(list(files_of(Path(folder))), [("Deep/Two", ""), ("One", "a head")])

    def test_declared_as_a_definition_a_field_and_a_case(self) -> None:
        with tempfile.TemporaryDirectory() as folder:
            path = Path(folder) / "a" / "specs" / "One.antt"
            path.parent.mkdir(parents=True)
            path.write_text(ONE)
            for name, place in ("Holds", 9), ("Left", 7), ("Yes", 14):
                self.assertEqual(list(declared(Path(folder), name)), [f"a/specs/One.antt:{place}: a head"])


class Passed(unittest.TestCase):
    """A name that a file takes from another and passes on."""

    def test_what_a_name_rests_on(self) -> None:
        texts = {
            "One": "use Rattle.a.specs.Two.{low}\n\npub top : ℕ\ntop = low\n",
            "Two": "unfoldable pub use Rattle.a.specs.Three.{low}\n",
            "Three": "pub low : ℕ\nlow = 1\n",
        }
        with tempfile.TemporaryDirectory() as folder:
            for name, text in texts.items():
                path = Path(folder) / "a" / "specs" / f"{name}.antt"
                path.parent.mkdir(parents=True, exist_ok=True)
                path.write_text(text)
            files = {module.name: module for module in modules(Path(folder))}
            found = rests_on(files, "a/specs/One.antt", "top")
        self.assertEqual(found, {("Rattle.a.specs.One", "top"), ("Rattle.a.specs.Three", "low")})

    def test_a_file_that_a_crate_passes_on(self) -> None:
        texts = {
            "a/specs/One": "use Rattle.b.specs.Two.{low}\n\npub top : ℕ\ntop = low\n",
            "b/specs/Lib": "pub mod Other\npub use Rattle.c.specs.Two\n",
            "c/specs/Two": "pub low : ℕ\nlow = 1\n",
        }
        with tempfile.TemporaryDirectory() as folder:
            for name, text in texts.items():
                path = Path(folder) / f"{name}.antt"
                path.parent.mkdir(parents=True, exist_ok=True)
                path.write_text(text)
            files = {module.name: module for module in modules(Path(folder))}
            found = rests_on(files, "a/specs/One.antt", "top")
        self.assertEqual(found, {("Rattle.a.specs.One", "top"), ("Rattle.c.specs.Two", "low")})


class DefinedTwice(unittest.TestCase):
    """Two files of two crates in a folder of their own."""

    def setUp(self) -> None:
        folder = tempfile.TemporaryDirectory()
        self.addCleanup(folder.cleanup)
        self.crates = Path(folder.name)

    def found(self, one: str, two: str) -> dict[str, Any]:
        for name, text in ("a/specs/One.antt", one), ("b/specs/deep/Two.antt", two):
            path = self.crates / name
            path.parent.mkdir(parents=True, exist_ok=True)
            path.write_text(text)
        return places(modules(self.crates))

    def test_places(self) -> None:
        found = self.found(ONE, TWO)
        self.assertEqual(found["Holds"], ["a/specs/One.antt:9", "b/specs/deep/Two.antt:3"])
        self.assertEqual([name for name, of in found.items() if len(of) > 1], ["Holds"])
        self.assertEqual(sorted(found), ["Answer", "Holds", "Kind", "Other", "Pair"])

    def test_a_name_in_one_file_alone(self) -> None:
        found = self.found(ONE, TWO.replace("Holds", "Stays"))
        self.assertTrue(all(len(of) == 1 for of in found.values()))
        self.assertEqual(found["Stays"], ["b/specs/deep/Two.antt:3"])


class Contracts(unittest.TestCase):
    def test_each_is_defined(self) -> None:
        missing = [(file, name) for file, name in CONTRACTS if name not in Module(CRATES / file).definitions]
        self.assertEqual(missing, [])
