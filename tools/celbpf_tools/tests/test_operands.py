"""What is told of the operands of a refused piece, by operands whose types are given here."""

import unittest
from typing import Any

from ..asking.operands import TYPES, told
from ..asking.places import Refusals
from ..asking.policies import Part
from ..asking.splitter import cut

# operands of known types; all others are of any
GIVEN = {"1": "an int", "2": "an int", "'a'": "a text", "[1]": "a list", "{}": "a map", "true": "a bool", "size(x)": "an int"}
ROWS = [
    ("o.startsWith(1)", "`startsWith` takes texts; `1` is an int"),
    ("1 == 'a'", "`==` takes two values of one type; `1` is an int, `'a'` is a text"),
    ("o - 'a'", "`-` takes ints; `'a'` is a text"),
    ("!1", "`!` takes bools; `1` is an int"),
    ("{1: 2}", "a map takes keys that are texts; `1` is an int"),
    ("[1][true]", "an index, `[..]`, takes a map and a text, or a list and an int; `[1]` is a list, `true` is a bool"),
    ("true ? 1 : null", "`? :` takes a bool before `?`, and two values of one type after it; `true` is a bool, `1` is an int, `null` is null"),
    ("'a'.f", "`.f` takes a map; `'a'` is a text"),
    ("o.all(x, size(x))", "`all` takes a list or a map, and a bool for each item; `size(x)` is an int"),
    ("o + p", ""), ("f(1)", ""), ("1", ""),
]


class Given(Refusals):
    """Refuses an expression of an operand unless it is for the operand's type."""

    def refuses_text(self, text: str, frames: list[Any]) -> bool:
        for operand, kind in GIVEN.items():
            for name, form in TYPES.items():
                if text == form % operand:
                    return name != kind
        return False


class Operands(unittest.TestCase):
    def test_rows(self) -> None:
        for text, due in ROWS:
            with self.subTest(text):
                refusals: Any = Given(None, Part("validation", 0, text, []), "Y2")  # type: ignore[arg-type]
                self.assertEqual(told(refusals, text, cut(text), []), due)

    def test_a_long_operand_is_cut(self) -> None:
        text = f"o - '{'b' * 60}'"
        GIVEN[text[4:]] = "a text"
        found = told(Given(None, Part("validation", 0, text, []), "Y2"), text, cut(text), [])  # type: ignore[arg-type]
        self.assertEqual(found, f"`-` takes ints; `'{'b' * 39}..` is a text")
