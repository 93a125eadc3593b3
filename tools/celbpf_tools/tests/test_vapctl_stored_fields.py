"""What else of policies and bindings no API server stores; which documents are refused is compared with the evaluator."""

import unittest
from typing import Any

from ..evaluator.cluster import bindings, state
from ..evaluator.refused import Refused
from ..vapctl.cluster import BINDING, POLICY, VERSION
from ..vapctl.inputs import Place, Thing
from ..vapctl.rules import refusals
from ..vapctl.stored_fields import field_refusals

RULE: dict[str, Any] = {"apiGroups": [""], "apiVersions": ["v1"], "operations": ["CREATE"], "resources": ["pods"]}
RULES = {"resourceRules": [RULE]}
SETS = "Required value: must be specified when `operator` is 'In' or 'NotIn'"
PRESENCES = "Forbidden: may not be specified when `operator` is 'Exists' or 'DoesNotExist'"
KNOWN = 'supported values: "DoesNotExist", "Exists", "In", "NotIn"'
# selectors, and what is refused of each below it
SELECTORS: list[tuple[Any, list[str]]] = [
    ({}, []), ({"matchLabels": {"a": "b", "x.io/a": ""}}, []), ({"matchExpressions": [{"key": "a", "operator": "In", "values": ["b"]}]}, []),
    ({"matchExpressions": [{"key": "a", "operator": "Exists"}, {"key": "a", "operator": "DoesNotExist", "values": []}]}, []),
    ([], ["selector: Invalid value: []: it is no object"]),
    ({"matchLabel": {}}, ["selector.matchLabel: there is no such field"]),
    ({"matchLabels": {"a b": "c"}}, ['selector.matchLabels: Invalid value: "a b": it is no key of a label']),
    ({"matchLabels": {"a/b/c": "d"}}, ['selector.matchLabels: Invalid value: "a/b/c": it is no key of a label']),
    ({"matchLabels": {"a": "-"}}, ['selector.matchLabels.a: Invalid value: "-": it is no value of a label']),
    ({"matchLabels": {"a": 1}}, ["selector.matchLabels.a: Invalid value: 1: it is no text"]),
    ({"matchExpressions": [{"key": "a", "operator": "in", "values": ["b"]}]},
     [f'selector.matchExpressions[0].operator: Unsupported value: "in": {KNOWN}']),
    ({"matchExpressions": [{"key": "a", "operator": "NotIn"}]}, [f"selector.matchExpressions[0].values: {SETS}"]),
    ({"matchExpressions": [{"key": "a", "operator": "Exists", "values": ["b"]}]}, [f"selector.matchExpressions[0].values: {PRESENCES}"]),
    ({"matchExpressions": [{"key": "", "operator": "Exists"}]}, ['selector.matchExpressions[0].key: Invalid value: "": it is no key of a label']),
    ({"matchExpressions": [{"key": "a", "operator": "In", "values": ["b", "c d"]}]},
     ['selector.matchExpressions[0].values[1]: Invalid value: "c d": it is no value of a label']),
]
# specifications of policies, and what is refused below `spec`
POLICIES: list[tuple[dict[str, Any], list[str]]] = [
    ({"matchConstraints": RULES}, []),
    ({}, ["matchConstraints: Required value"]),
    ({"matchConstraints": {}}, ["matchConstraints.resourceRules: Required value"]),
    ({"matchConstraints": {**RULES, "matchPolicy": "exact"}},
     ['matchConstraints.matchPolicy: Unsupported value: "exact": supported values: "Equivalent", "Exact"']),
    ({"matchConstraints": {**RULES, "resourceRule": []}}, ["matchConstraints.resourceRule: there is no such field"]),
    ({"matchConstraints": {"resourceRules": [{**RULE, "scope": "cluster"}]}},
     ['matchConstraints.resourceRules[0].scope: Unsupported value: "cluster": supported values: "*", "Cluster", "Namespaced"']),
    ({"matchConstraints": {"resourceRules": [{**RULE, "names": ["a"]}]}}, ["matchConstraints.resourceRules[0].names: there is no such field"]),
    ({"matchConstraints": {"resourceRules": [{**RULE, "resourceNames": "a"}]}},
     ['matchConstraints.resourceRules[0].resourceNames: Invalid value: "a": it is no list of texts']),
    ({"matchConstraints": RULES, "paramKind": {"kind": "ConfigMap"}}, ["paramKind.apiVersion: Required value"]),
    ({"matchConstraints": RULES, "paramKind": {"apiVersion": "v1", "kind": ""}}, ["paramKind.kind: Required value"]),
    ({"matchConstraints": RULES, "paramKind": {"apiVersion": "v1", "kind": "ConfigMap", "name": "a"}}, ["paramKind.name: there is no such field"]),
]
DENY: dict[str, Any] = {"policyName": "p", "validationActions": ["Deny"]}
# specifications of bindings, likewise
BINDINGS: list[tuple[Any, list[str]]] = [
    (DENY, []),
    ({**DENY, "paramRef": {"name": "a", "parameterNotFoundAction": "Deny"}}, []),
    ({**DENY, "policy": "p"}, ["policy: there is no such field"]),
    ({"validationActions": ["Deny"]}, ["policyName: Required value"]),
    ({"policyName": "p"}, ["validationActions: Required value"]),
    ({**DENY, "validationActions": ["deny"]}, ['validationActions[0]: Unsupported value: "deny": supported values: "Audit", "Deny", "Warn"']),
    ({**DENY, "validationActions": ["Audit", "Audit"]}, ['validationActions[1]: Duplicate value: "Audit"']),
    ({**DENY, "validationActions": ["Deny", "Warn"]}, ['validationActions: Invalid value: ["Deny", "Warn"]: must not contain both Deny and Warn']),
    ({**DENY, "matchResources": {"matchPolicy": "Some"}},
     ['matchResources.matchPolicy: Unsupported value: "Some": supported values: "Equivalent", "Exact"']),
    ({**DENY, "paramRef": {"name": "a"}}, ["paramRef.parameterNotFoundAction: Required value"]),
    ({**DENY, "paramRef": {"parameterNotFoundAction": "Deny"}}, ["paramRef: Required value: one of name or selector must be specified"]),
    ({**DENY, "paramRef": {"name": "a", "selector": {}, "parameterNotFoundAction": "Deny"}},
     ["paramRef.name: Forbidden: name and selector are mutually exclusive"]),
    ({**DENY, "paramRef": {"name": "a", "parameterNotFoundAction": "Fail"}},
     ['paramRef.parameterNotFoundAction: Unsupported value: "Fail": supported values: "Allow", "Deny"']),
]


def thing(kind: str, spec: Any) -> Thing:
    return Thing({"apiVersion": VERSION, "kind": kind, "metadata": {"name": "p"}, "spec": spec}, Place("p.yaml", 1))


def is_refused(one: Thing) -> bool:
    """Whether the evaluator refuses a document."""
    try:
        bindings.read(one.value) if one.kind == BINDING else state.read_policy(one.value, [])
    except Refused:
        return True
    return False


class Fields(unittest.TestCase):
    def compare(self, one: Thing, due: list[str]) -> None:
        with self.subTest(one.value["spec"]):
            self.assertEqual([f"{found.key}: {found.meaning}" for found in field_refusals(one, True)], [f"spec.{line}" for line in due])
            self.assertEqual(bool(due) or any(refusals(one)), is_refused(one))

    def test_policies(self) -> None:
        for spec, due in POLICIES:
            self.compare(thing(POLICY, spec), due)

    def test_bindings(self) -> None:
        for spec, due in BINDINGS:
            self.compare(thing(BINDING, spec), due)
        self.assertEqual([one.key for one in field_refusals(thing(BINDING, None))], ["spec"])
        self.assertEqual([one.meaning for one in field_refusals(thing(BINDING, []))], ["Invalid value: []: it is no object"])

    def test_selectors(self) -> None:
        for selector, due in SELECTORS:
            for key in ("namespaceSelector", "objectSelector"):
                lines = [f"matchConstraints.{line.replace('selector', key, 1)}" for line in due]
                self.compare(thing(POLICY, {"matchConstraints": {**RULES, key: selector}}), lines)
            reference = {**DENY, "paramRef": {"selector": selector, "parameterNotFoundAction": "Allow"}}
            self.compare(thing(BINDING, reference), [f"paramRef.{line}" for line in due])

    def test_rules_are_needed_in_a_state_alone(self) -> None:
        self.assertEqual(list(field_refusals(thing(POLICY, {}))), [])
        self.assertEqual(list(field_refusals(Thing({"apiVersion": "v1", "kind": "Pod", "spec": 3}, Place("p.yaml", 1)))), [])


if __name__ == "__main__":
    unittest.main()
