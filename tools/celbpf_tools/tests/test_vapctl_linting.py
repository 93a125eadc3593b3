"""Where policies are refused, and in which words."""

import unittest

from .. import documents
from ..vapctl.linting import outside, path_of_key
from ..vapctl.positions import Marks, Position

POLICIES = """\
kind: a
---
kind: b
spec:
  validations:
  - {expression: "true", mesage: x}
  - message: y
  a.b: 1
"""


class Words(unittest.TestCase):
    def test_forms_that_are_outside_the_language(self) -> None:
        for text, at, told in (
            ("a > 0.5", 6, "doubles, such as 0.5, are outside the language"),
            ("a > 1e3", 5, "doubles, such as 1e3, are outside the language"),
            ("a > 3u", 5, "unsigned ints, such as 3u, are outside the language"),
            ("a.?b", 1, "optional fields, `.?` and `[?`, are outside the language"),
            ("a[?b]", 2, "optional fields, `.?` and `[?`, are outside the language"),
            ("a 0.5", 2, ""), ("a.b1.5", 4, ""), ("a == ", 5, ""), ("0.5 + ", 6, ""),
        ):
            self.assertEqual(outside(text, at), told, text)


class Paths(unittest.TestCase):
    def test_paths_of_keys(self) -> None:
        self.assertEqual(path_of_key("spec.validations[12].mesage"), ("spec", "validations", 12, "mesage"))
        self.assertEqual(path_of_key("[]"), ())

    @unittest.skipIf(documents.yaml_package() is None, "PyYAML is not installed")
    def test_places_of_keys(self) -> None:
        marks = Marks(POLICIES)
        for line, key, place in (
            (3, "spec.validations[0].mesage", Position(6, 26)),
            (3, "spec.validations[1]", Position(7, 5)),
            (3, "spec", Position(4, 1)),
            (1, "kind", Position(1, 1)),
            # a key with a dot is not found, and the policy is told
            (3, "spec.a.b", Position(3)), (3, "the document", Position(3)), (3, "[]", Position(3)),
            (3, "spec.validations[2].a", Position(3)), (3, "kind.a[0]", Position(3)), (2, "kind", Position(2)),
        ):
            self.assertEqual(marks.of_key(line, path_of_key(key)), place, key)
