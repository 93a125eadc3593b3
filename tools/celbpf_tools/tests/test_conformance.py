"""The conformance data of cel-spec: its text format, what is in the profile, and how a case is decided."""

import unittest
from typing import Any, Optional

from ..conformance.cases import Case
from ..conformance.lexis import reason as lexical_reason
from ..conformance.profile import IS_UNTYPED, reason
from ..conformance.running import ANOTHER, FAIL, IGNORE, NO_VALUE, THE_VALUE, Runner, review, validations
from ..conformance.textproto import Malformed, Word, read


def case_of(text: str) -> Case:
    """The case of a message in the text format."""
    return Case("file/section/case", read(text))


class Decided(Runner):
    """A program that says the same to every policy, and decides every review by a table."""

    def __init__(self, refusal: str, denials: dict[str, Any]):
        self.refusal = refusal
        self.denials = denials

    def compiled(self, document: dict[str, Any]) -> str:
        return self.refusal

    def denial(self, policy_document: dict[str, Any], review_document: dict[str, Any]) -> str:
        return self.denials[policy_document["spec"]["failurePolicy"]]


class TextFormat(unittest.TestCase):
    def test_fields_and_messages(self) -> None:
        found = read('# a comment\nname: "a"  # another\nvalue { int64_value: -7 } values: [1, 2]; flag: true,')
        self.assertEqual(found.one("name"), "a")
        self.assertEqual(found.one("value").only(), ("int64_value", "-7"))
        self.assertEqual(found.all("values"), ["1", "2"])
        self.assertEqual(found.one("flag"), Word("true"))

    def test_texts(self) -> None:
        self.assertEqual(read(r'''a: "x\n\101\x42" 'y"' ''').one("a"), 'x\nABy"')
        self.assertEqual(read(r"a: '\303\251\u00e9'").one("a"), "\u00e9\u00e9")

    def test_names_in_brackets(self) -> None:
        found = read("a < [type.example.com/x.Y] { b: 1 } >").one("a")
        self.assertEqual(found.one("[type.example.com/x.Y]").one("b"), "1")

    def test_what_is_malformed(self) -> None:
        for text, line in (("a: 1\nb {", 2), ("a: }", 1), ("a: 1\n\n!", 3), ("[a.b", 1)):
            with self.subTest(text), self.assertRaisesRegex(Malformed, f"line {line}: "):
                read(text)


class Profile(unittest.TestCase):
    def test_forms_by_tokens(self) -> None:
        rows = {
            "1.5": "double literal", "1e3": "double literal", "1u": "uint literal", "b'a'": "bytes literal",
            "rb'a'": "bytes literal", "'''a'''": "triple-quoted text", "x.`a-b`": "escaped field name", ".x": "leading dot",
            "a.?b": "optional value", "[?a]": "optional value", "T{a: 1}": "message literal",
            "[1].map(x, {})[0] in [{}]": None, "true ? {'a': 1} : {}": None, "'1.5 // 1u' + r'b\'": None,
        }
        for text, why in rows.items():
            with self.subTest(text):
                self.assertEqual(lexical_reason(text), why)

    def out(self, text: str, more: str = "") -> Optional[str]:
        return reason(case_of(f"expr: {text!r} {more} value {{ bool_value: true }}"))

    def test_forms_by_tree(self) -> None:
        rows = {
            "x": "name that is not bound", "int": "type value", "type(1) == int": "function type", "{1: 2} == {}": "map key that is not a text",
            "7 in {}": "map key that is not a text", "[1].all(i, v, true)": "macro of two names",
            "string(true) == 'true'": "conversion of a bool or null", "[1].all(x, x == 1)": None, "1 +": None,
        }
        for text, why in rows.items():
            with self.subTest(text):
                self.assertEqual(self.out(text), why)

    def test_values_and_flags(self) -> None:
        self.assertEqual(reason(case_of("expr: '1' value { uint64_value: 1 }")), "value: uint")
        self.assertEqual(reason(case_of("expr: '1' value { list_value { values { double_value: 1 } } }")), "value: double")
        self.assertEqual(reason(case_of("expr: '1' unknown { }")), "unknown value")
        self.assertEqual(self.out("true", "check_only: true"), "type alone")
        self.assertEqual(self.out("true && 1", "disable_check: true"), IS_UNTYPED)
        self.assertIsNone(self.out("true && 1"), "without the flag an ill-typed expression is in the profile, and fails")
        bound = "bindings { key: 'x' value { value { map_value { entries { key { int64_value: 1 } } } } } }"
        self.assertEqual(self.out("x == x", bound), "map key that is not a text")


class Running(unittest.TestCase):
    def test_what_tests_a_value(self) -> None:
        case = case_of("expr: 'x + 1' bindings { key: 'x' value { value { int64_value: 2 } } } value { int64_value: 3 }")
        whole = "[object.bound.x].map(x, dyn(x + 1\n))[0]"
        expressions = [one["expression"] for one in validations(case, ["x"])]
        self.assertEqual(expressions, [f"{whole} == object.wanted", f"{whole} != object.wanted"])
        self.assertEqual(review(case, {"x": 2})["request"]["object"], {"bound": {"x": 2}, "wanted": 3})

    def test_outcomes_of_a_value(self) -> None:
        case = case_of("expr: '1' value { int64_value: 1 }")
        self.assertIsNone(Decided("", {FAIL: THE_VALUE, IGNORE: THE_VALUE}).fault(case))
        for denials in ({FAIL: ANOTHER, IGNORE: ANOTHER}, {FAIL: f"{ANOTHER}; {THE_VALUE}", IGNORE: ""}, {FAIL: "", IGNORE: ""}):
            with self.subTest(denials):
                self.assertIsNotNone(Decided("", denials).fault(case))
        self.assertEqual(Decided("K6 validation 0 Y2", {}).fault(case), "refused with K6 validation 0 Y2")

    def test_outcomes_of_an_error(self) -> None:
        case = case_of("expr: '1/0' eval_error { errors { message: 'divide by zero' } }")
        self.assertIsNone(Decided("", {FAIL: NO_VALUE, IGNORE: ""}).fault(case))
        for denials in ({FAIL: "", IGNORE: ""}, {FAIL: NO_VALUE, IGNORE: NO_VALUE}):
            with self.subTest(denials):
                self.assertIsNotNone(Decided("", denials).fault(case))

    def test_an_ill_typed_case_is_refused(self) -> None:
        case = case_of("expr: 'true && 1' value { bool_value: true }")
        self.assertIsNone(Decided("K6 validation 0 Y2", {}).fault_of_untyped(case))
        self.assertIsNotNone(Decided("", {}).fault_of_untyped(case))
