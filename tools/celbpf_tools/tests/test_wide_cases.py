"""The wide language: policies with annotations, expressions from a seed, and a gatekeeper that is compared."""

import contextlib
import io
import json
import sys
import unittest
from typing import Any
from unittest import mock

from ..commands import wide_cases
from ..entry import ended
from ..evaluator import grammar, macros, responses, reviews, verdicts
from ..evaluator.costs import Costs
from ..evaluator.meaning import Meaning as Profile
from ..evaluator.refused import Refused
from ..seeded.examples import examples
from ..seeded.numbers import Numbers
from ..wide import policies
from ..wide.cases import Case, Due
from ..wide.comparing import Compared, names
from ..wide.expression import Scope, taken
from ..wide.meaning import Meaning
from ..wide.patterns import found_all
from . import wide_stand_in
from .test_documents import Files
from .test_wide import ROOTS

API = {"apiVersion": "admissionregistration.k8s.io/v1", "kind": "ValidatingAdmissionPolicy"}


def policy_of(**spec: Any) -> policies.WidePolicy:
    return policies.read({**API, "spec": spec})


def annotated(expression: str, failure: str = "Fail", params: tuple[Any, ...] = (None,)) -> tuple[Any, ...]:
    """What an annotation `r` gives over these params."""
    policy = policy_of(failurePolicy=failure, auditAnnotations=[{"key": "r", "valueExpression": expression}])
    return policies.annotated(policy, [{**ROOTS, "params": one} for one in params])


# an annotation's expression, its denials under Fail, and what is published under each failure policy
ANNOTATIONS = [
    ("'r=' + string(object.spec.replicas)", [], {"r": "r=3"}),
    ("'r=' + object.spec.none", ["valueExpression ''r=' + object.spec.none' resulted in error"], {}),
    ("'  '", [], {}),
    ("null", [], {}),
    ("'\\u2028é\\t'", [], {"r": "é"}),
]
# a specification, and its refusal
REFUSED: list[tuple[dict[str, Any], str]] = [
    ({}, "K4"),
    ({"auditAnnotations": [{"key": "r"}]}, "K3"),
    ({"auditAnnotations": [{"key": "r", "valueExpression": "object.spec.image"}]}, "K9"),
    ({"auditAnnotations": [{"key": "r", "valueExpression": "has(object.a) ? 'x' : null"}]}, "K6 annotation 0 Y2 at 0"),
    ({"auditAnnotations": [{"key": "r", "valueExpression": "'a'"}] * 65}, "K5"),
    ({"validations": [{"expression": "1"}]}, "K7"),
    ({"validations": [{"expression": "true"}, {"expression": "authorizer.a"}]}, "K6 validation 1 W5 authorizer at 0"),
    # all validations are before all messages
    ({"validations": [{"expression": "true", "messageExpression": "1.5"}, {"expression": "b'a'"}]},
     "K6 validation 1 W1 at 0"),
    ({"validations": [{"expression": "true"}], "matchConditions": [{"name": "a", "expression": "variables.v"}]},
     "K6 condition 0 Y3 at 0"),
    ({"variables": [{"name": "v", "expression": "object.?a"}], "validations": [{"expression": "variables.v"}]},
     "K6 validation 0 W4 at 0"),
]


# an expression, and one of the profile that means the same
TRANSLATIONS = [
    ("object.spec.?a.orValue(1) <= 5", "(object.spec != null && has(object.spec.a) ? object.spec.a : 1) <= 5"),
    ("object.spec.?a == object.spec.?b",
     "(object.spec != null && has(object.spec.a) ? [object.spec.a] : []) =="
     " (object.spec != null && has(object.spec.b) ? [object.spec.b] : [])"),
    ("object.spec.?a.optMap(x, x + 1).orValue(0)",
     "object.spec != null && has(object.spec.a) ? [object.spec.a].map(x, x + 1)[0] : 0"),
    ("object.spec.a[?0].orValue('')",
     "(object.spec.a == null ? false : 0 < size(object.spec.a + [])) ? object.spec.a[0] : ''"),
    ("object.m[?object.k].hasValue()",
     "object.m == null ? string(object.k) != string(object.k) : object.m.map(w1, w1) == object.m"
     " ? (object.k < size(object.m) ? 0 <= object.k : false) : object.k in object.m"),
    ("object.m.exists(i, v, v == '')",
     "(object.m.map(w1, w1) == object.m ? object.m : object.m.map(w3, object.m[w3])).exists(w2, w2 == '')"),
    ("has(object.m.`a-b`)",
     "object.m != null && (has(object.m.a) ? 'a-b' in object.m : 'a-b' in object.m)"),
    ("string(object.k) + 'm'",
     "(object.k == true ? 'true' : object.k == false ? 'false' : string(object.k)) + 'm'"),
    ("object.m.first().orValue(object.k)",
     "[[object.m + []].map(w1, w1 == [] ? [] : [w1[0]])[0]].map(w2, w2 == [] ? object.k : w2[0])[0]"),
]
PARTS: list[Any] = [
    None, True, False, 0, 1, 2, -1, "", "a", "a-b", [], [1], ["a", ""], [None, 2], {}, {"a": 1}, {"a-b": ""},
    {"a": None},
]


def partly(numbers: Numbers, names: str) -> dict[str, Any]:
    """A map of some of these names to any of PARTS."""
    return {name: numbers.pick(PARTS) for name in names if not numbers.one_in(6)}


class Translations(unittest.TestCase):
    def test_translations_mean_the_same(self) -> None:
        numbers = Numbers(1)
        for expression, translated in TRANSLATIONS:
            with self.subTest(expression):
                tree, other = taken(expression, Scope()), macros.expand(grammar.read(translated))
                found = set()
                for _ in range(400):
                    whole = partly(numbers, "mk")
                    whole["spec"] = numbers.pick([None, "a", partly(numbers, "ab"), partly(numbers, "ab")])
                    roots = {**ROOTS, "object": whole}
                    due, result = Profile(roots, {}, Costs()).of(other), Meaning(roots, {}).of(tree)
                    self.assertEqual(repr(result), repr(due), whole)
                    found.add(repr(result))
                # both an error and values are tried
                self.assertIn("error", found)
                self.assertGreater(len(found), 1)


class Policies(unittest.TestCase):
    def test_annotations(self) -> None:
        for expression, denials, published in ANNOTATIONS:
            with self.subTest(expression):
                self.assertEqual(annotated(expression), (denials, published))
                self.assertEqual(annotated(expression, "Ignore"), ([], published))

    def test_annotations_of_several_params(self) -> None:
        given = ({"max": 5}, {"max": 7}, {"max": 5})
        self.assertEqual(annotated("'max ' + string(params.max)", params=given), ([], {"r": "max 5, max 7"}))

    def test_a_long_annotation_is_cut_at_a_code_point(self) -> None:
        text = annotated(f"'{'a' * 10_239}éa'")[1]["r"]
        self.assertEqual(text, "a" * 10_239)

    def test_refusals(self) -> None:
        for spec, due in REFUSED:
            with self.subTest(due):
                with self.assertRaises(Refused) as why:
                    policy_of(**spec)
                self.assertEqual(why.exception.text, due)

    def test_empty_annotations_and_message_expressions_are_absent(self) -> None:
        policy = policy_of(auditAnnotations=[], validations=[{"expression": "true", "messageExpression": ""}])
        self.assertEqual((policy.compiled.messages, policy.values), ([None], []))

    def test_texts_are_trimmed_and_nulls_passed_over(self) -> None:
        policy = policies.read({
            **API, "apiVersion": "admissionregistration.k8s.io/v1beta1", "status": {}, "metadata": None,
            "spec": {"paramKind": None, "validations": [{"expression": "\n object.?a.hasValue() ", "message": None}]},
        })
        response = responses.response(policy.compiled.policy, policies.verdict_of(policy, ROOTS), "u")
        self.assertIn("failed expression: object.?a.hasValue()", response)

    def test_examples_are_decided_as_their_responses_say(self) -> None:
        for name, case, stored in examples():
            with self.subTest(name):
                policy = policies.read(json.loads(case.policy))
                review = reviews.read(case.review, case.namespace, case.params)
                verdict = policies.verdict_of(policy, review.roots)
                found = responses.response(policy.compiled.policy, verdict, review.uid)
                self.assertEqual(found + "\n", stored)

    def test_conditions_have_no_namespace(self) -> None:
        conditions = [{"name": "a", "expression": "namespaceObject == null"}]
        policy = policy_of(matchConditions=conditions, validations=[{"expression": "false"}])
        outcome = policies.verdict_of(policy, {**ROOTS, "namespaceObject": {}}).outcome
        self.assertEqual(outcome, verdicts.DENIED)


class Script(Files):
    def ran(self, *words: str, count: int = 5) -> tuple[Any, ...]:
        command = [sys.executable, "-B", wide_stand_in.__file__, *words]
        program = self.file("gatekeeper", f'#!/bin/sh\nexec {" ".join(command)} "$@"\n')
        program.chmod(0o755)
        given = ["wide-cases", "--count", str(count), "--seed", "1", str(program)]
        with mock.patch.object(sys, "argv", given), contextlib.redirect_stdout(io.StringIO()) as said:
            return ended("wide-cases", wide_cases.main), said.getvalue()

    def test_a_gatekeeper_that_answers_as_is_due(self) -> None:
        status, said = self.ran()
        self.assertEqual(status, 0, said)
        self.assertRegex(said.splitlines()[-1], r"the gatekeeper answered \d expressions as the evaluator")

    def test_a_gatekeeper_that_answers_otherwise(self) -> None:
        status, said = self.ran("--wrong")
        self.assertEqual(status, 1)
        self.assertRegex(said, r"^case \d+ of seed 1 differs\nexpression ")
        self.assertRegex(said, r"review \d: \{.*\ndue \{")

    def test_an_expression_that_is_taken_though_a_refusal_is_due(self) -> None:
        program = self.file("gatekeeper", "#!/bin/sh\n")
        program.chmod(0o755)
        found = Compared().difference(program, Case("1 + 'a'", {}, [ROOTS]), Due("Y2 at 0"))
        self.assertEqual(found, "it is accepted, and Y2 at 0 is due")


class Parts(unittest.TestCase):
    def test_lines_that_name_a_refusal(self) -> None:
        for line, refusal, due in [
            ("celbpf: K6 variable 0 W5 authorizer at 41", "W5 authorizer at 41", True),
            ("celbpf: K6 variable 0 W5 authorizer at 40", "W5 authorizer at 41", False),
            ("policy P: validation 2, at byte 41: W4: words", "W4 at 41", True),
            ("celbpf: K6 variable 0 M3", "M3 at 4", True),
            ("celbpf: K6 variable 0 M2", "M3 at 4", False),
        ]:
            with self.subTest(line):
                self.assertEqual(names(line, refusal), due)

    def test_an_empty_match_directly_after_a_match_is_none(self) -> None:
        self.assertEqual(found_all("a*", "baac"), ["", "aa", ""])


if __name__ == "__main__":
    unittest.main()
