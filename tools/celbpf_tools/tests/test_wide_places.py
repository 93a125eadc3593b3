"""Pieces of expressions as clusters store them, which of them are refused, and in which words."""

import re
import unittest
from typing import Any, Optional

from ..asking.policies import Part
from ..asking.splitter import NotCut, Piece
from ..asking.wide_places import Found, Places, leaf_at, wants_optional
from ..asking.wide_splitter import cut
from ..asking.wide_words import told

# a text, and its pieces from the outermost on, those of one depth from left to right
PIECES = [
    ("object.?a.`b/c`", ["object.?a.`b/c`", "object.?a", "object"]),
    ("m.all(k, v, k != v)", ["m.all(k, v, k != v)", "m", "k != v", "k", "v"]),
    ("[?a, 1u] + {?'b': c}", ["[?a, 1u] + {?'b': c}", "[?a, 1u]", "a", "1u", "{?'b': c}", "'b'", "c"]),
    ("a[?0]", ["a[?0]", "a", "0"]),
    ("c ? .a : 1.5", ["c ? .a : 1.5", "c", ".a", "1.5"]),
    ("'''it's''' + r'\\'", ["'''it's''' + r'\\'", "'''it's'''", "r'\\'"]),
    ("o.optMap(x, f(x))", ["o.optMap(x, f(x))", "o", "f(x)", "x"]),
]
NOT_CUT = ["'a", "a.?", "a[?]", "a.?b(", "f{}", "$"]


def texts(text: str, piece: Piece) -> list[Any]:
    return [text[piece.begin : piece.end], *(one for part in piece.parts for one in texts(text, part))]


class Pieces(unittest.TestCase):
    def test_pieces(self) -> None:
        for text, due in PIECES:
            with self.subTest(text):
                self.assertEqual(texts(text, cut(text)), due)

    def test_what_is_not_cut(self) -> None:
        for text in NOT_CUT:
            with self.subTest(text), self.assertRaises(NotCut):
                cut(text)

    def test_names_of_a_macro(self) -> None:
        self.assertEqual(cut("m.all(k, v, true)").name, "k v")
        self.assertEqual(cut("m.all(k, true)").name, "k")

    def test_leaves(self) -> None:
        leaf = leaf_at(cut("a + 1u"), 4)
        assert leaf is not None
        self.assertEqual(leaf.word, "1u")
        self.assertIsNone(leaf_at(cut("a + 1u"), 3))


def around(text: str, piece: Piece, path: tuple[Any, ...] = ()) -> Optional[tuple[Any, ...]]:
    """The pieces that the leaf `x` is in, and the leaf."""
    if piece.kind == "leaf" and piece.word == "x":
        return piece, path
    found = (around(text, part, (*path, piece)) for part in piece.parts)
    return next((one for one in found if one), None)


class Optionals(unittest.TestCase):
    def test_whether_an_optional_value_has_to_stand_there(self) -> None:
        for text, due in [
            ("x", False), ("x + 1", False), ("x.orValue(1)", True), ("a.orValue(x)", False), ("a.or(x)", True),
            ("x.f.g[0].hasValue()", True), ("a[x].hasValue()", False), ("(c ? x : a).value()", True),
            ("(x ? b : a).value()", False), ("[?x]", True), ("[x]", False), ("{'a': x}", False), ("{?'a': x}", True),
            ("{?x: a}", False), ("x.optMap(y, y)", True), ("a.optMap(y, x)", False), ("a.optFlatMap(y, x)", True),
            ("x.map(y, y)", False), ("x.size()", False), ("x ? a : b", False),
        ]:
            with self.subTest(text):
                piece, path = around(text, cut(text)) or (None, ())
                assert piece is not None
                self.assertEqual(wants_optional(piece, path), due)

    def test_wholes_that_are_optional_values(self) -> None:
        for text, due in [("a[?b]", True), ("a.?b", True), ("a.first()", True), ("a.optMap(x, x)", True), ("a.b", False)]:
            with self.subTest(text):
                self.assertEqual(wants_optional(cut(text), ()), due)


# the brackets that the stand-in takes, where a gatekeeper takes 512 levels
MOST = 9


class Program:
    """Stands in for a gatekeeper that has no function `bad` or `join`, no double, and a macro of one name only."""

    def refusal(self, policy: Any) -> str:
        for place, variable in enumerate(policy["spec"]["variables"]):
            text = variable["expression"].strip()
            if double := re.search(r"[0-9]\.[0-9]", text):
                return f"K6 variable {place} W2 at {len(text[: double.start()].encode())}"
            if text.count("[") > MOST:
                return f"K6 variable {place} W10"
            for name, call in {" bad": r"\bbad\(", " join": r"\bjoin\(", "": r"\.all\(\w+, \w+,"}.items():
                if re.search(call, text):
                    return f"K6 variable {place} W5{name}"
        return ""


def found(text: str) -> list[Any]:
    """What is refused: the texts under the carets, with the causes and the names."""
    part = Part("validation", 0, text, [])
    return [(one.cause, one.name, text[one.begin : one.end]) for one in Places(Program(), part).found()]


class Refused(unittest.TestCase):
    def test_all_pieces_of_an_expression(self) -> None:
        for text, due in [
            ("true", []),
            ("a == bad(1) && b.bad(2)", [("W5", "bad", "bad(1)"), ("W5", "bad", "bad")]),
            ("l.exists(x, x == bad(x)) || bad(2)", [("W5", "bad", "bad(x)"), ("W5", "bad", "bad(2)")]),
            ("m.all(k, v, bad(v))", [("W5", "bad", "bad(v)"), ("W5", "", "m.all(k, v, bad(v))")]),
            # the whole is refused for `join` first, and what it is asked of for another reason
            ("m.all(k, v, true).join(',')", [("W5", "", "m.all(k, v, true)"), ("W5", "join", "join")]),
            # what follows a refused call by a method that there is not is no refusal of its own
            ("bad(1).get() == 2", [("W5", "bad", "bad(1)")]),
            ("  'é' == a && 1.5 < b + 2.5", [("W2", "", "1.5"), ("W2", "", "2.5")]),
            ("\n1.5 'a", [("W2", "", "1")]),
            # the whole of it, which is not cut
            ("[" * 10 + "bad(1)" + "]" * 10, [("W10", "", "[" * 10 + "bad(1)" + "]" * 10)]),
        ]:
            with self.subTest(text):
                self.assertEqual(found(text), due)


class Words(unittest.TestCase):
    def test_words_and_what_to_write(self) -> None:
        for text, cause, name, due in [
            ("a.split(',')", "W5", "split",
             ("`split` is not supported yet",
              "`(',' + e + ',').contains(',' + x + ',')` for `x in e.split(',')`, `e == 'a' || e.startsWith('a/')` for a first part")),
            ("lists.range(3)", "W5", "range", ("`lists.range` is not supported yet", "the list itself, as `[0, 1, 2]`")),
            ("cel.bind(x, 1, x)", "W5", "bind", ("no API server up to 1.36 has `cel.bind`", "a variable of the policy")),
            ("authorizer.path('/')", "W5", "path", ("the decisions of the authorizer are not known here", "")),
            ("a.foo(1)", "W5", "foo", ("there is no function `foo` with these arguments", "")),
            ("int", "W5", "int", ("a type, such as `int`, is no value here", "")),
            ("variables.b", "W5", "b",
             ("no variable `b` is known here", "a variable that comes before; a match condition has none")),
            ("a.value()", "W5", "value", ("`value` follows an optional value alone", "`.?` before the field that it follows")),
            ("l.all(celbpf_x, true)", "W5", "celbpf_x", ("`celbpf_x` is not taken as the name of an item", "another name")),
            ("l.existsOne(x, true)", "W5", "existsOne", ("no API server up to 1.36 has `existsOne`", "`exists_one`")),
            ("{?k: o}", "W6", "",
             ("of a map at most three entries have a question mark, with keys that are texts, written out", "`has(e.f) ? {..} : {..}`")),
            ("b'a'", "W1", "", ("bytes, such as b'a', are not supported", "`'a'`")),
            ("2U", "W2", "", ("an unsigned int, 2U, is taken beside == != < <= > >= alone", "`2`")),
            ("o.or(1)", "W4", "",
             ("`or` needs an optional value between its brackets", "`or` with an optional value, `orValue` with another")),
            ("e[o]", "W4", "", ("what is between `[` and `]` is an optional value", "`.orValue(..)` for its value, or `.hasValue()`")),
            ("m.transformList(k, v, k)", "W5", "",
             ("a macro uses the index or key of what may be longer than the documents' lists and maps, as a sum may",
              "a macro over each list of the sum, or one with a single name")),
            ("a.b", "W10", "", ("it is nested more than 512 deep", "variables for parts of it")),
            ("a", "M3", "", ("has() is asked of what is no field", "`has(e.f)`, or `k in e` for a key")),
            ("a.startWith('x')", "W5", "startWith", ("there is no function `startWith` with these arguments", "`startsWith`")),
            ("a.length()", "W5", "length", ("there is no function `length` with these arguments", "`size`")),
            ("size(a, b)", "W5", "size", ("there is no function `size` with these arguments", "")),
            ("obj", "W5", "obj", ("`obj` is no name here", "`object`")),
            ("varables", "W5", "varables", ("`varables` is no name here", "`variables`")),
        ]:
            with self.subTest(text):
                one = Found(cause, 0, len(text), name, cut(text), text=text)
                self.assertEqual(told(one, text), due)

    def test_the_whole_result(self) -> None:
        self.assertEqual(told(Found("W4", 0, 1), "o"), ("its result is an optional value", "`.orValue(..)` for its value, or `.hasValue()`"))


if __name__ == "__main__":
    unittest.main()
