"""Why keys of a policy are refused."""

import unittest
from typing import Any

from ..asking.refused import Refused
from ..vapctl.key_causes import cause
from ..vapctl.linting import without_key


class Causes(unittest.TestCase):
    def test_words(self) -> None:
        for key, value, wanted in [
            ("spec.failurePolicy", "fail", "it is `fail`; there are Fail, Ignore"),
            ("spec.failurePolicy", 3, "it is a number, and not a text"),
            ("spec.validations", {}, "it is an object, and not a list"),
            ("spec.validation", [], "no such key; there is `validations`"),
            ("spec.validations[0].expresion", "true", "no such key; there is `expression`"),
            ("spec.validations[2].message", True, "it is a bool, and not a text"),
            ("spec.validations[2].reason", "Bad", "it is `Bad`; there are Unauthorized, Forbidden, Invalid, RequestEntityTooLarge"),
            ("spec.matchConditions[1].name", None, "it is null, and not a text"),
            ("spec.variables[0].name", "a-b", "`a-b` is no name of CEL: a letter or `_`, then letters, digits and `_`"),
            ("spec.variables[0].x", 1, "no such key; there are name, expression"),
            ("statuss", {}, "no such key; there is `status`"),
            ("spec.variables[0]", 1, ""),
        ]:
            with self.subTest(key, value=value):
                self.assertEqual(cause(key, value), wanted)


class Left(unittest.TestCase):
    """What is left of a policy whose key was told."""

    def test_a_key_goes(self) -> None:
        policy = {"spec": {"failurePolicy": "x", "validations": [{"expresion": "a"}], "variables": [{"name": "a-b", "expression": "1"}]}}
        rows: list[tuple[str, Any, Any]] = [
            ("spec.failurePolicy", "x", {key: policy["spec"][key] for key in ("validations", "variables")}),
            ("spec.validations[0].expresion", "a", {**policy["spec"], "validations": [{"expression": "true"}]}),
            ("spec.variables[0].name", "a-b", {**policy["spec"], "variables": [{"name": "item0", "expression": "1"}]}),
        ]
        for key, value, left in rows:
            with self.subTest(key):
                self.assertEqual(without_key(policy, "K3", Refused("", key=key, value=value)), {"spec": left})

    def test_nothing_goes(self) -> None:
        policy: dict[str, Any] = {"spec": {"validations": [{}]}}
        rows: list[tuple[str, str, Any]] = [
            ("K2", "spec", {}), ("K3", "spec", {}), ("K3", "spec.validations", []), ("K3", "", None),
            ("K3", "spec.validations[0]", "expression is missing"), ("K3", "spec.validations[3].a", 1),
        ]
        for refusal, key, value in rows:
            with self.subTest(refusal, key=key):
                self.assertIsNone(without_key(policy, refusal, Refused("", key=key, value=value)))
