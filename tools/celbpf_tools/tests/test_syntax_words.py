"""What is meant by texts that are no expressions."""

import unittest

from ..asking.syntax_words import open_brackets, told


class Slips(unittest.TestCase):
    def test_what_to_write(self) -> None:
        for cause, text, at, wanted in [
            ("P1", "a = 1", 2, "`==`"), ("P1", "a === 1", 4, "`==`"), ("P1", "a & b", 2, "`&&`"), ("P1", "a | b", 2, "`||`"), ("P1", "a # b", 2, ""),
            ("P4", "a and b", 2, "`&&`"), ("P4", "a or b", 2, "`||`"), ("P4", "not a", 4, "`!`"), ("P4", "if a then b", 3, "`c ? a : b`"),
            ("P4", "size(a) is 1", 8, "`==`"), ("P4", "a.?'k'.x", 3, "`[?'k']`"), ("P4", "a <> b", 3, "`!=`"),
            ("P4", "a in ('x', 'y')", 9, "`in ['a', 'b']`"), ("P4", "a ?? b", 3, "`.?` before the field, and `.orValue(..)` after it"), ("P4", "a?.b == c", 9, "`.?`"), ("P4", "a ? b", 5, ""),
            ("P4", "f(a 'b')", 4, ""), ("P4", "f(a, , b)", 5, ""),
        ]:
            with self.subTest(text):
                self.assertEqual(told(cause, text, at)[1], wanted)

    def test_what_is_wrong(self) -> None:
        for text, at, wanted in [
            ("", 0, "the text is empty"), ("  ", 2, "the text is empty"), ("(a", 2, "the `(` in column 1 of the text is not closed"),
            ("l.all(x, ['(', x", 16, "the `[` in column 10 of the text is not closed"), ("a)", 1, "no bracket is open that `)` closes"),
            ("a +", 3, "the text ends too early"), ("a b", 2, "a token does not fit here, or the text ends too early"),
        ]:
            with self.subTest(text):
                self.assertEqual(told("P4", text, at)[0], wanted)

    def test_brackets_in_texts_are_none(self) -> None:
        for text, wanted in [("'('", ""), ("r'\\' + (", "("), ('"""("""', ""), ("[(]", "[("), ("{'}': (", "{(")]:
            with self.subTest(text):
                self.assertEqual("".join(mark for mark, _ in open_brackets(text)), wanted)
