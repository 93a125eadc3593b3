"""Names of pages that are in no file: of names before a file, of READMEs, and paths."""

import tempfile
import unittest
from pathlib import Path
from typing import Any

from ..commands.pointers import faults

ARCHITECTURE = "After `one/specs/Held.antt` and `one/src/held.rt`.\n"
CHANGING = "1. `Holds` (`one/specs/Held.antt`), `take`\n   (`one/src/held.rt`).\n"
PROOFS = "| a clause | `Holds` and `small` (`one/specs/Held.antt`), `Deeper` (`Low.antt`) |\n"
README = "# one\n\n- `held_value` and `Held::take` (`Holds`), K3 as `K3`, `exit 5`, `two`.\n"
FILES = {
    "docs/ARCHITECTURE.md": ARCHITECTURE,
    "docs/CHANGING.md": CHANGING,
    "docs/PROOFS.md": PROOFS,
    "crates/one/README.md": README,
    "crates/one/specs/Held.antt": "pub Holds : ℕ\n",
    "crates/one/specs/More.antt": "pub small : ℕ\n",
    "crates/one/specs/Deep/Low.antt": "pub Deeper : Holds\n",
    "crates/one/src/held.rt": "fn held_value() {}\nimpl Held { fn take(self) {} }\n",
    "crates/two/specs/Lib.antt": "",
}


class Pointers(unittest.TestCase):
    """A repository of two crates in a folder of its own."""

    def setUp(self) -> None:
        folder = tempfile.TemporaryDirectory()
        self.addCleanup(folder.cleanup)
        self.root = Path(folder.name)

    def found(self, **other: str) -> list[Any]:
        for name, text in {**FILES, **other}.items():
            path = self.root / name
            path.parent.mkdir(parents=True, exist_ok=True)
            path.write_text(text)
        return list(faults(self.root, self.root / "crates"))

    def test_names_that_are_there(self) -> None:
        found = self.found(**{"docs/PROOFS.md": PROOFS.replace(" and `small`", "")})
        self.assertEqual(found, [])

    def test_a_name_of_another_file(self) -> None:
        self.assertEqual(self.found(), ["docs/PROOFS.md: small is not in one/specs/Held.antt"])

    def test_a_name_that_is_gone(self) -> None:
        found = self.found(**{"docs/PROOFS.md": "", "crates/one/src/held.rt": "fn held_value() {}\n"})
        self.assertEqual(
            found,
            ["docs/CHANGING.md: take is not in one/src/held.rt", "crates/one/README.md: take is in no source"],
        )

    def test_a_type_that_is_gone(self) -> None:
        found = self.found(**{"docs/PROOFS.md": "", "docs/GLOSSARY.md": "| K1; K2 | `one::Held`; `one::Gone` | page |\n"})
        self.assertEqual(found, ["docs/GLOSSARY.md: Gone is not in one"])

    def test_a_table_of_a_standard(self) -> None:
        found = self.found(**{"docs/PROOFS.md": "", "crates/one/RFC9669.md": "| 3.1 | `gone` (`one/specs/Held.antt`) |\n"})
        self.assertEqual(found, ["crates/one/RFC9669.md: gone is not in one/specs/Held.antt"])

    def test_a_file_that_is_gone(self) -> None:
        found = self.found(**{"docs/PROOFS.md": "", "docs/ARCHITECTURE.md": "In `one/src/gone.rt` and `one/specs/Gone`.\n"})
        self.assertEqual(found, ["docs/ARCHITECTURE.md: there is no one/src/gone.rt", "docs/ARCHITECTURE.md: there is no one/specs/Gone"])
