"""What vapctl says of refused policies."""

import unittest

from ..vapctl.gate import answer_of
from ..vapctl.refusals import why_blocked, words_of, words_of_refusal

ROWS = [
    ("K6 validation 0 P4 at 7", "validation 0: a token does not fit here, or the text ends too early at byte 7 (P4)"),
    ("K6 variable 1 W5 url", "variable 1: it has a name or a form that is not supported (W5 url)"),
    ("K6 message 2 W4", "message of validation 2: an optional value stands where there can be none (W4)"),
    ("K6 variable 3 W10", "variable 3: it is nested more than 512 deep (W10)"),
    ("K6 condition 0 W1 at 3", "condition 0: it has a literal of bytes at byte 3 (W1)"),
]


class Words(unittest.TestCase):
    def test_refusals_of_expressions(self) -> None:
        for refusal, due in ROWS:
            with self.subTest(refusal):
                self.assertEqual(words_of(refusal), due)
                self.assertEqual(why_blocked(f"C7 {refusal}"), due)

    def test_a_field_that_is_not_read(self) -> None:
        self.assertTrue(words_of("K3").endswith("(K3); `vapctl lint` names the key"))
        told = "audit annotations are not supported yet: leave them out, and their values are not computed (K3)"
        self.assertEqual(words_of("K3 auditAnnotations"), told)

    def test_refusals_of_policies(self) -> None:
        due = "the policy is refused: validation 1: it has a name or a form that is not supported (W5 url); `vapctl lint` shows all refusals"
        for line in ("N1 K6 validation 1 W5 url", "K6 validation 1 W5 url"):
            self.assertEqual(words_of_refusal(line), due)
        self.assertTrue(words_of_refusal("G3").startswith("the policy is refused: the parts up to here have more than 512 nodes"))
        self.assertTrue(words_of_refusal("N2").startswith("the review is refused"))

    def test_refusals_of_reviews(self) -> None:
        for code, due in (("N4", "its program takes more steps than are allowed"), ("N7", "its program reads more than is allowed")):
            answer = answer_of(f'{{"policy":"p","refused":"{code}","uid":"u"}}')
            self.assertEqual((answer.policy, answer.why_refused), ("p", f"{due} ({code})"))


if __name__ == "__main__":
    unittest.main()
