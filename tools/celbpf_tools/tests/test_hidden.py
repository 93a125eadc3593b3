"""Refusals behind one for a table of indices."""

import unittest
from typing import Any

from ..asking import hidden, policies

# an expression, and it without its indices and keys
TEXTS = [
    ("object.a == 1", "object.a == 1"), ("object.l.all(x, x > 1)", "object.l.all(x, x > 1)"), ("'a", "'a"),
    (" m.all(k, v, k != v)", " (m).all(k0, v, [dyn(null)].all(k,k != v))"),
    ("l.all(k, k0, k != 1) || true", "(l).all(k1, k0, [dyn(null)].all(k,k != 1)) || true"),
    ("m.transformList(k, v, k)", "(m).transformList(k0, v, [dyn(null)].map(k,k)[0])"),
    ("[m.transformList(k, v, v, k)]", "[(m).transformList(k0, v, [dyn(null)].all(k,v), [dyn(null)].map(k,k)[0])]"),
    ("l.map(x, x.existsOne(i, y, i == 0))", "l.map(x, (x).existsOne(i0, y, [dyn(null)].all(i,i == 0)))"),
    ("!l.isSorted()", "!(dyn((l) + []) == null)"), ("l.distinct()[0]", "((l) + [])[0]"),
    ("l.reverse().reverse()", "((((l) + [])) + [])"), ("l.indexOf(1)", "l.indexOf(1)"), ("l.distinct(1)", "l.distinct(1)"),
    ("l.slice(a, m.all(k, v, k))", "(dyn((a)) == dyn(((m).all(k0, v, [dyn(null)].all(k,k)))) ? (l) + [] : [])"),
]
# the same of what is known to be a list
OF_LISTS = [("l.map(x, x).indexOf(o.?a) + 1", "(dyn((o.?a)) == dyn((l.map(x, x))) ? 0 : 1) + 1"), ("l.reverse()", "l.reverse()")]
# the refusal of a policy, of it without indices and keys, of its validation alone, and what is told
REFUSALS = [
    ("", "", "", ""), ("K6 validation 0 W4", "", "", "K6 validation 0 W4"), ("K6 variable 0 W5", "K6 validation 0 W4", "", "K6 validation 0 W4"),
    ("K6 validation 0 W5 url", "", "", "K6 validation 0 W5 url"), ("K6 variable 0 W5", "", "K6 variable 1 W5", "K6 validation 0 W5"),
    ("K6 variable 0 W5", "", "", "K6 variable 0 W5"),
]
POLICY = policies.whole({
    "variables": [{"name": "a", "expression": "m.all(k, v, k)"}], "validations": [{"expression": "variables.a", "messageExpression": None}],
})


class Program:
    """Says to the policy, to it without indices, and to a part alone what it is given."""

    def __init__(self, *said: str):
        self.of_whole, self.of_changed, self.of_part = said

    def refusal(self, policy: dict[str, Any]) -> str:
        if policy == POLICY:
            return self.of_whole
        if policy == hidden.without_keys(POLICY, hidden.METHODS):
            return self.of_changed
        variables = policy["spec"]["variables"]
        return self.of_part if variables[-1]["expression"] == "variables.a" and "k0" not in variables[0]["expression"] else ""


class Hidden(unittest.TestCase):
    def test_texts(self) -> None:
        for text, due in TEXTS:
            with self.subTest(text):
                self.assertEqual(hidden.text_without_keys(text, hidden.METHODS).replace("\n", ""), due)

    def test_texts_of_lists(self) -> None:
        for text, due in OF_LISTS:
            with self.subTest(text):
                self.assertEqual(hidden.text_without_keys(text, hidden.OF_LISTS).replace("\n", ""), due)

    def test_refusals(self) -> None:
        for *said, due in REFUSALS:
            with self.subTest(said):
                self.assertEqual(hidden.of_policy(Program(*said), POLICY), due)


if __name__ == "__main__":
    unittest.main()
