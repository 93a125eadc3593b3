"""The documents of tools/json-documents: what is due of some written by hand, and the smallest that differ."""

import unittest
from itertools import islice
from typing import Any
from unittest import mock

from ..json_texts import answers
from ..json_texts.answers import Answer, Case, answer
from ..json_texts.documents import cases
from ..json_texts.reading import NotJson, Other, document_of, size_of, written
from ..json_texts.shrinking import smallest
from ..seeded.numbers import Numbers

HEAD = b'{"apiVersion":"admission.k8s.io/v1","kind":"AdmissionReview","request":'
NO_DOCUMENTS = [
    b"", b" ", b"\xef\xbb\xbf{}", b"{} {}", b"[1,]", b"NaN", b"-Infinity", b"01", b"+1", b"1e400",
    b"1.7976931348623159e308", b"1" + b"0" * 309,
    b'"\\ud800"', b'{"\\udc00":0}', b'"\\ud800\\ud800\\udc00"', b'{"a":"\\ud800","a":0}', b'"\\x61"', b'"\x1f"',
    b'"\xed\xa0\x80"', b'"\xc0\xaf"',
    b"[" * 128 + b"]" * 128, b'{"a":' + b"[" * 127 + b"]" * 127 + b',"a":0}', b'{"a":1e400,"a":0}', b"[" * 100_000,
    b"\xa0{}",
]
DOCUMENTS = [
    (b" null\r\n", "null"),
    (b"[-9223372036854775808,9223372036854775807,0]", "[-9223372036854775808,9223372036854775807,0]"),
    (b'{"b":1,"a":2,"\\u0062":3}', '{"a":2,"b":3}'),
    ('{"\U00010000":0,"\uffff":1}'.encode(), '{"\uffff":1,"\U00010000":0}'),
    (b'"\\ud83d\\ude00\\/\\u001F\\u007f"', '"😀/\\u001f\x7f"'), (b"[" * 127 + b"]" * 127, "[" * 127 + "]" * 127),
    (b'"[[{\\"["', '"[[{\\"["'),
    (b'{"a":1.5,"a":0}', '{"a":0}'),
]


class Reading(unittest.TestCase):
    def test_no_documents(self) -> None:
        for given in NO_DOCUMENTS:
            with self.subTest(given=given[:40]), self.assertRaises(NotJson):
                document_of(given)

    def test_documents(self) -> None:
        for given, text in DOCUMENTS:
            with self.subTest(given=given[:40]):
                self.assertEqual(written(document_of(given)), text)

    def test_numbers_that_are_no_ints(self) -> None:
        for given in (b"-0", b"1.0", b"9223372036854775808", b"-9223372036854775809", b"1e-400", b"1.7976931348623158e308"):
            self.assertIsInstance(document_of(given), Other)

    def test_sizes(self) -> None:
        self.assertEqual(size_of({"spec": {"replicas": 5}}), 17)
        self.assertEqual(size_of({"uid": "u1"}), 8)


class Answers(unittest.TestCase):
    def refusal(self, request: bytes, namespace: Any = None, params: Any = None) -> str:
        return answer(Case(HEAD + request + b"}", namespace, params)).refusal

    def test_refusals_in_their_order(self) -> None:
        self.assertEqual(self.refusal(b'{"uid":1}', b"", b""), "N2")
        self.assertEqual(self.refusal(b'{"uid":"u","object":1}', b"", b"{}"), "N3")
        self.assertEqual(self.refusal(b'{"uid":"u","object":-0}', b"[]", b"1.5"), "N2")
        self.assertEqual(self.refusal(b'{"uid":"u","a":1.5}', b"[]"), "N3")
        self.assertEqual(self.refusal(b'{"uid":"u","uid":null}'), "N2")
        self.assertEqual(self.refusal(b'{"uid":null,"uid":"u"}'), "")
        self.assertEqual(answer(Case(HEAD + b'{"uid":"u"},"kind":"Review"}')).refusal, "N2")
        self.assertEqual(answer(Case(HEAD + b'{"uid":"u"},"x":-1.5}')).refusal, "")

    def test_charge(self) -> None:
        # three nulls, the request {"uid":"u"} of size 7, and {"a":TEXT} of size 4 and the text's bytes
        with mock.patch.object(answers, "CHARGE", 3 + 7 + 4 + 10):
            self.assertEqual(self.refusal(b'{"uid":"u","object":{"a":"0123","a":"0123456789"}}'), "")
            self.assertEqual(self.refusal(b'{"uid":"u","object":{"a":"0123456789x"}}'), "N2")

    def test_response(self) -> None:
        given = answer(Case(HEAD + b'{"uid":"u","object":{"a":1,"b":2},"oldObject":{"b":2,"a":1}}}', b"{}"))
        self.assertEqual(given, Answer("", "u", ('{"a":1,"b":2}', '{"a":1,"b":2}', "null", "{}", '{"uid":"u"}')))
        self.assertEqual(
            given.response(),
            '{"apiVersion":"admission.k8s.io/v1","kind":"AdmissionReview","response":{"allowed":false,'
            '"status":{"code":422,"message":"one","reason":"Invalid"},"uid":"u"}}\n',
        )


class Seeded(unittest.TestCase):
    def test_each_answer_comes(self) -> None:
        found = {answer(case).refusal for case in islice(cases(Numbers(1)), 200)}
        self.assertEqual(found, {"", "N2", "N3"})

    def test_smallest(self) -> None:
        case = smallest(Case(b"abcXdefgYh", b"n", b"12Z3"), lambda other: b"X" in other.review and b"Y" in other.review)
        self.assertEqual(case, Case(b"XY", None, None))
