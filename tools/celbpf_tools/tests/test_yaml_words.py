"""What is said of faults in YAML, by both parsers of PyYAML."""

import unittest
from typing import Any

from .. import documents
from ..yaml_words import placed, told

# texts, and what is said of each; the lines and columns are counted by hand
FAULTS = [
    ("metadata:\n\tname: a\n", "a tab is no indentation; write blanks"),
    ("a:\n- b: 1\n \tc: 2\n", "a tab is no indentation; write blanks"),
    ("data:\n  a: b: c\n", "a text has `: ` in it; put it into quotes"),
    ("- expression: x\n  message: no: way\n", "a text has `: ` in it; put it into quotes"),
    ("a: 1\n  b: 2\n", "this line is indented more than the one before it, whose value is a text; indent both alike"),
    ("a: @x\n", "a text begins with `@`; put it into quotes"),
    ("a: `x`\n", "a text begins with a backtick; put it into quotes"),
    ("a: %x\n", "a text begins with `%`; put it into quotes"),
    ("a: *x\n", "a text begins with `*`, and is read as a name that no `&` before it gives; put it into quotes"),
    ("expression: !has(object.x)\n", "a text begins with `!`, and is read as the tag `!has(object.x)`; put it into quotes"),
    ("a: !!foo x\n", "a text begins with `!`, and is read as the tag `!!foo`; put it into quotes"),
    ("a: {{ x }}\n", "a key is a list or a map; put a text that begins with `{` into quotes"),
    ('a: "\\d+"\n', "`\\d` is no escape in double quotes; write `\\\\d`, or single quotes"),
    ('a: 1\nb: "x\nc: 2\n', "the quoted text that begins in line 2 does not end"),
    ("a: 'it's'\n", "text follows the closing quote; in single quotes write `''` for `'`, in double quotes `\\\"` for `\"`"),
    ("a: [1, 2\n", "the `[` of line 1 is not closed, or a comma is missing"),
    ("a: {b: 1\nc: 2\n", "the `{` of line 1 is not closed, or a comma is missing"),
    ("a: [\n", "a value is missing, or a bracket before it is not closed"),
    ("a: {b: 1}}\n", "`}` closes no bracket"),
    ("a: b\nc\n", "line 2 is neither a key, which ends with `:`, nor indented as part of a text"),
    ("a: b\n- c\n", "an item of a list is where a key has to be"),
    ("a:\n  b: 1\n c: 2\n", "this line is indented neither as the lines before it nor as a part of them"),
    ("  a: 1\nb: 2\n", "this line is indented neither as the lines before it nor as a part of them"),
    ("a: \x01\n", "the character U+0001 is not allowed in YAML"),
]


@unittest.skipIf(documents.yaml_package() is None, "PyYAML is not installed")
class Words(unittest.TestCase):
    def said(self, text: str, load: Any) -> str:
        """What is said of a text that a loader refuses."""
        try:
            list(documents.yaml_values(text, load))
        except documents.yaml_package().YAMLError as why:
            return told(text, why)
        return "it is read"

    def test_both_parsers(self) -> None:
        bases = [getattr(documents.yaml_package(), name, None) for name in ("SafeLoader", "CSafeLoader")]
        for base in (one for one in bases if one is not None):
            for text, words in FAULTS:
                with self.subTest(text, base=base.__name__):
                    self.assertEqual(self.said(text, documents.loader(base)), words)

    def test_a_place_is_before_what_to_do(self) -> None:
        self.assertEqual(placed("a tab; write blanks", "column 2"), "a tab at column 2; write blanks")
        self.assertEqual(placed("a tab", "line 1 column 2"), "a tab at line 1 column 2")


if __name__ == "__main__":
    unittest.main()
