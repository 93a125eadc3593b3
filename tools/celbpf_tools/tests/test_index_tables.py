"""Which translations run on params with a table of indices, how long that is, and where it is placed."""

import json
import unittest
from typing import Any

from ..asking.index_tables import is_wrapped, placed, width
from . import test_documents

INDICES = "params.t.n.filter(celbpf_i, (celbpf_i < size(object.l))).all(i, (i < 2))"
# a part of a translation, its text, and whether that uses a table
EXPRESSIONS = [
    ("variables", INDICES, True), ("matchConditions", INDICES, True), ("validations", f"({INDICES} || true)", True),
    ("validations", "params.t.n.filter(i, (i < 2)) == []", False), ("validations", 'object.a == "params.t.n.filter(celbpf_i"', False),
    ("validations", f'object.a == "\\"" || ({INDICES} || object.b == "\\\\")', True),
    ("validations", r'object.a == "\" || params.t.n.filter(celbpf_"', False),
]
# values with their widths, the rows of value_widths/specs/Rows.antt
WIDTHS: list[tuple[Any, int]] = [
    (None, 0), ("abc", 0), ([], 0), ({}, 0), ([[None], "abc", 7], 3), ({"a": [None], "b": None}, 2),
    ({"a": [[None], "abc", 7], "b": None}, 3), ([[[None], "abc", 7], None, None, None], 4),
]
# a request, a namespace and params as JSON or none, and how many indices there are
LENGTHS: list[tuple[Any, str, str, int]] = [
    ({"object": {"l": [0] * 17}}, "", "", 17), ({"oldObject": {"l": [[0] * 18]}}, "", "", 18), ({"userInfo": {"groups": ["g"] * 19}}, "", "", 19),
    ({"object": {"l": [0] * 15}}, "", "", 16), ({"object": None}, json.dumps({"l": [0] * 20}), "", 20), ({}, "", json.dumps({"l": [0] * 21}), 21),
    # the object and the one before are no fields of the root `request`
    ({**{f"f{place}": 0 for place in range(14)}, "object": {}, "oldObject": {}}, "", "", 16),
]
# a review and params that are refused as they are
REFUSED = [
    ("", "{}"), ("[]", "{}"), ('{"request": []}', "{}"), ('{"request": {}}', "[1]"), ('{"request": {}}', "1"), ('{"request": {}}', "{"),
    ('{"request": {}}', '{}, "w": {}'), ("[" * 100_000, "{}"),
]


def translation(key: str, text: str) -> str:
    """A translation as a gatekeeper prints it, with this expression."""
    spec = {"validations": [{"expression": "true"}], key: [{"name": "n", "expression": text}]}
    return json.dumps({"metadata": {"annotations": {"validation.0": INDICES}}, "spec": spec})


class Translations(unittest.TestCase):
    def test_which_use_a_table(self) -> None:
        for key, text, due in EXPRESSIONS:
            with self.subTest(text):
                self.assertEqual(is_wrapped(translation(key, text)), due)

    def test_a_message_may_be_what_uses_it(self) -> None:
        spec = {"validations": [{"expression": "true", "messageExpression": f"string({INDICES})"}]}
        self.assertTrue(is_wrapped(json.dumps({"spec": spec})))

    def test_widths(self) -> None:
        for value, due in WIDTHS:
            with self.subTest(value):
                self.assertEqual(width(value), due)


class Placed(test_documents.Files):
    def words(self, review: str, namespace: str, params: str) -> list[str]:
        """The words for documents with these texts."""
        texts = {"review": review, "namespace": namespace, "params": params}
        return [word for name, text in texts.items() if text or name == "review" for word in (f"--{name}", str(self.file(f"{name}.json", text)))]

    def params(self, words: list[str]) -> str:
        """The text of the params of words that are placed."""
        named = dict(zip(words[::2], words[1::2]))
        with open(named["--params"], encoding="utf-8") as file:
            return file.read()

    def test_lengths(self) -> None:
        for request, namespace, params, due in LENGTHS:
            with self.subTest(request):
                words = self.words(json.dumps({"request": request}), namespace, params)
                text = self.params(placed(words, self.folder / "tabled.json"))
                self.assertEqual(json.loads(text), {"t": {"n": list(range(due))}, "v": json.loads(params or "null")})

    def test_the_text_of_the_params_stays(self) -> None:
        own = '{"a": 1e3, "a": "\\ud83d\\ude00"}'
        words = placed(self.words('{"request": {}}', "{}", own), self.folder / "tabled.json")
        self.assertEqual(self.params(words), '{"t":{"n":[0, 1, 2, 3, 4, 5, 6, 7, 8, 9, 10, 11, 12, 13, 14, 15]},"v":' + own + "}")
        self.assertEqual(words[:4], ["--review", str(self.folder / "review.json"), "--namespace", str(self.folder / "namespace.json")])

    def test_what_is_refused_stays(self) -> None:
        for review, params in REFUSED:
            with self.subTest((review[:20], params)):
                words = self.words(review, "", params)
                self.assertEqual(placed(words, self.folder / "tabled.json"), words)
        self.assertEqual(placed([], self.folder / "tabled.json"), [])


if __name__ == "__main__":
    unittest.main()
