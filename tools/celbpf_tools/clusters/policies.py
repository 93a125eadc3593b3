"""Policies and bindings whose parts are mostly right."""

from typing import Any, Optional

from ..seeded.numbers import Numbers
from . import making
from .selecting import Selecting
from .words import CONFIG_MAP, LIMIT, NAMESPACE, NAMESPACES, NOWHERE, PARAM_NAMES

EXPRESSIONS = [
    "false", "false", "true", " false\t", "params == null", "params != null", "params.data.most == '1'",
    "params.metadata.name != 'a'",
    "oldObject == null", " 1 / 0 == 1", "object == null || has(object.spec)", "object.metadata.name != 'web'", "1 / 0 == 1",
    "request.name == 'web'",
    "namespaceObject == null", "namespaceObject != null && 'env' in namespaceObject.metadata.labels", "has(request.uid)",
    "namespaceObject.metadata.name == 'prod'", "request.operation != 'CREATE'", "variables.wanted", "has(object.metadata.labels)",
]
CONDITIONS = ["true", "true", "request.name != 'db'", "1 / 0 == 1", "params == null", "object.metadata.name == 'web'", "false"]
# those of 5,120 and 5,121 bytes are at the border of what a denial shows
MESSAGE_EXPRESSIONS = [
    "'text'", "' text\\u2003'", "params.metadata.name", "params.metadata.name", "object.metadata.name", "'a\\nb'", "'  '",
    "'a\\n'", "1 / 0 == 1 ? 'a' : 'b'",
    f"'{'é' * 2560}'", f"'{'é' * 2560}a'", "'\\'<a>&\\u2028\\''", "'\\u00a0'", "string(1) + request.name",
]
MESSAGES = ["m", "m", "n", " m ", "<a> & \"b\" \\ \u2028 c", "\t\x7f\x01", "\u3000", "über 😀"]
REASONS = ["Unauthorized", "Forbidden", "Invalid", "RequestEntityTooLarge"]
ACTIONS = [
    ["Deny"], ["Deny"], ["Deny"], ["Warn"], ["Warn"], ["Audit"], ["Deny", "Audit"], ["Audit", "Deny"], ["Warn", "Audit"],
    ["Audit", "Warn"],
]
UNSTORABLE_ACTIONS = [[], ["Deny", "Warn"], ["Warn", "Audit", "Deny"], ["Audit", "Audit"], ["deny"], "Deny", None, [1]]
# parts of a specification that no cluster stores
UNSTORABLE_PARTS: list[Any] = [
    {"paramKind": {"kind": "ConfigMap"}}, {"paramKind": {"apiVersion": "v1", "kind": ""}}, {"paramKind": {**LIMIT, "x": 1}},
    {"matchConstraints": None},
]
# parts for which a policy is refused
REFUSED = [
    {"auditAnnotations": [{"key": "k", "valueExpression": "'a'"}]}, {"validations": [{"expression": "'a'.matches('a')"}]},
    {"validations": []}, {"validations": [{"expression": "1"}]},
    {"matchConditions": [{"name": "c", "expression": "namespaceObject == null"}]},
    {"matchConditions": [{"name": "c", "expression": "[1].exists(x, has(namespaceObject.metadata))"}]},
    {"failurePolicy": "Never"},
    {"validations": [{"expression": "object."}]}, {"paramKind": NOWHERE}, {"paramKind": NOWHERE}, {"variables": None},
    {"validations": [{"expression": "true", "message": "a\nb"}]},
]


class Policies(Selecting):
    """Makes policies and bindings; with `refuses` some of the policies are refused."""

    def __init__(self, numbers: Numbers, spoils: bool, refuses: bool):
        super().__init__(numbers, spoils)
        self.refuses = refuses

    def validation(self) -> dict[str, Any]:
        numbers = self.numbers
        made = {"expression": numbers.pick(EXPRESSIONS)}
        if numbers.one_in(2):
            made["message"] = numbers.pick(MESSAGES)
        if numbers.one_in(3):
            made["messageExpression"] = numbers.pick(MESSAGE_EXPRESSIONS)
        if numbers.one_in(3):
            made["reason"] = numbers.pick(REASONS)
        return made

    def conditions(self) -> list[Any]:
        numbers = self.numbers
        count = numbers.pick([0, 0, 0, 0, 1, 2])
        return [{"name": f"c{place}", "expression": numbers.pick(CONDITIONS)} for place in range(count)]

    def kind(self) -> Optional[dict[str, Any]]:
        return self.numbers.pick([None, None, CONFIG_MAP, CONFIG_MAP, LIMIT, NAMESPACE, *([LIMIT] * 4 if self.refuses else [])])

    def policy(self, name: str) -> dict[str, Any]:
        """A policy, with what kubectl prints beside its specification."""
        numbers = self.numbers
        spec: dict[str, Any] = {
            "matchConstraints": self.constraints(),
            "validations": [self.validation() for _ in range(1 + numbers.below(3))],
            "variables": [{"name": "wanted", "expression": numbers.pick(["true", "false", "1 / 0 == 1", "object.spec.on"])}],
            "matchConditions": self.conditions(),
        }
        if not numbers.one_in(3):
            spec["failurePolicy"] = numbers.pick(["Fail", "Ignore"])
        kind = self.kind()
        if kind is not None:
            spec["paramKind"] = kind
        if self.refuses and numbers.one_in(4):
            spec.update(numbers.pick(REFUSED))
        if self.is_spoiled(15):
            spec.update(numbers.pick(UNSTORABLE_PARTS))
        metadata = {"name": name, **numbers.pick([{"generation": 1}, {"creationTimestamp": None}, {"namespace": None, "labels": None}])}
        made = making.thing("ValidatingAdmissionPolicy", name, f"{making.GROUP}/v1")
        return {**made, "metadata": metadata, "spec": spec, "status": {"observedGeneration": 1, "typeChecking": {}}}

    def reference(self) -> dict[str, Any]:
        """Where params are."""
        numbers = self.numbers
        made: dict[str, Any] = {"parameterNotFoundAction": numbers.pick(["Deny", "Deny", "Allow"])}
        if numbers.one_in(2):
            made["name"] = numbers.pick(PARAM_NAMES + NAMESPACES[:1])
        else:
            made["selector"] = self.selector()
        if numbers.one_in(2):
            made["namespace"] = numbers.pick([*NAMESPACES[:2], "", None])
        if self.is_spoiled(12):
            made.update(numbers.pick([{"name": "a", "selector": {}}, {"name": "", "selector": None}, {"parameterNotFoundAction": "deny"}]))
        return made

    def binding(self, name: str, policy_name: str) -> dict[str, Any]:
        numbers = self.numbers
        made: dict[str, Any] = {"policyName": policy_name, "validationActions": numbers.pick(ACTIONS)}
        if numbers.one_in(2):
            made["paramRef"] = self.reference()
        resources = self.resources()
        if resources is not None:
            made["matchResources"] = resources
        if self.is_spoiled(15):
            made.update(numbers.pick([{"policyName": ""}, {"policyName": None}, {"x": 1}]))
        if self.is_spoiled(10):
            made["validationActions"] = numbers.pick(UNSTORABLE_ACTIONS)
        named = making.thing("ValidatingAdmissionPolicyBinding", name, f"{making.GROUP}/v1")
        return {**named, "spec": made}
