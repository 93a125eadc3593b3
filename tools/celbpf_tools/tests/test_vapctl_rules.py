"""Rules of policies and bindings that no API server stores."""

import unittest
from typing import Any

from ..vapctl.cluster import BINDING, POLICY, VERSION, NoState
from ..vapctl.inputs import Place, Thing
from ..vapctl.rules import refusals, refuse_rules
from .test_documents import Files

RULE: dict[str, Any] = {"apiGroups": [""], "apiVersions": ["v1"], "operations": ["CREATE"], "resources": ["pods"]}
KNOWN = 'supported values: "*", "CONNECT", "CREATE", "DELETE", "UPDATE"'
# the keys of a rule that are changed, and what is refused below it
ROWS: list[tuple[dict[str, Any], list[str]]] = [
    ({}, []),
    ({"operations": ["create"]}, [f'operations[0]: Unsupported value: "create": {KNOWN}']),
    ({"operations": ["CREATE", "PATCH", ""]}, [f'operations[1]: Unsupported value: "PATCH": {KNOWN}', f'operations[2]: Unsupported value: "": {KNOWN}']),
    ({"operations": []}, ["operations: Required value"]),
    ({"operations": None}, ["operations: Required value"]),
    ({"operations": "CREATE"}, ['operations: Invalid value: "CREATE": it is no list of texts']),
    ({"operations": ["*", "CREATE"]}, ["operations: Invalid value: [\"*\", \"CREATE\"]: if '*' is present, must not specify other operations"]),
    ({"operations": ["CREATE", "UPDATE", "DELETE", "CONNECT"]}, []),
    ({"apiGroups": []}, ["apiGroups: Required value"]),
    ({"apiGroups": ["apps", "*"]}, ["apiGroups: Invalid value: [\"apps\", \"*\"]: if '*' is present, must not specify other API groups"]),
    ({"apiGroups": [1]}, ["apiGroups: Invalid value: [1]: it is no list of texts"]),
    ({"apiVersions": []}, ["apiVersions: Required value"]),
    ({"apiVersions": ["v1", ""]}, ["apiVersions[1]: Required value"]),
    ({"apiVersions": ["v1", "*"]}, ["apiVersions: Invalid value: [\"v1\", \"*\"]: if '*' is present, must not specify other API versions"]),
    ({"resources": []}, ["resources: Required value"]),
    ({"resources": ["pods", ""]}, ["resources[1]: Required value"]),
    ({"resources": ["*", "deployments"]}, ["resources: Invalid value: [\"*\", \"deployments\"]: if '*' is present, must not specify other resources without subresources"]),
    ({"resources": ["*", "pods/log"]}, []),
    ({"resources": ["*/*", "pods"]}, ["resources: Invalid value: [\"*/*\", \"pods\"]: if '*/*' is present, must not specify other resources"]),
    ({"resources": ["*/*"]}, []),
    ({"resources": ["pods/*", "pods/log"]}, ["resources[1]: Invalid value: \"pods/log\": if 'pods/*' is present, must not specify pods/log"]),
    ({"resources": ["*/log", "pods/log"]}, ["resources[1]: Invalid value: \"pods/log\": if '*/log' is present, must not specify pods/log"]),
    # of these an API server sees nothing, since what covers them is after them
    ({"resources": ["pods/log", "pods/*"]}, []), ({"resources": ["deployments", "*"]}, []),
]


def thing(kind: str, spec: Any, file: str = "p.yaml") -> Thing:
    return Thing({"apiVersion": VERSION, "kind": kind, "metadata": {"name": "p"}, "spec": spec}, Place(file, 1))


def told(kind: str, spec: Any) -> list[str]:
    return [f"{one.key}: {one.meaning}" for one in refusals(thing(kind, spec))]


class Rules(Files):
    def test_rows(self) -> None:
        for changed, due in ROWS:
            for kind, name in ((POLICY, "matchConstraints"), (BINDING, "matchResources")):
                for key in ("resourceRules", "excludeResourceRules"):
                    with self.subTest(changed=changed, kind=kind, key=key):
                        found = told(kind, {name: {key: [RULE, {**RULE, **changed}]}})
                        self.assertEqual(found, [f"spec.{name}.{key}[1].{one}" for one in due])

    def test_absent_lists(self) -> None:
        for key in RULE:
            rule = {name: one for name, one in RULE.items() if name != key}
            self.assertEqual(told(POLICY, {"matchConstraints": {"resourceRules": [rule]}}), [f"spec.matchConstraints.resourceRules[0].{key}: Required value"])

    def test_other_forms(self) -> None:
        whole, first = "spec.matchConstraints.resourceRules", "spec.matchConstraints.resourceRules[0]"
        self.assertEqual(told(POLICY, {"matchConstraints": {"resourceRules": {}}}), [f"{whole}: Invalid value: {{}}: it is no list"])
        self.assertEqual(told(POLICY, {"matchConstraints": {"resourceRules": [1]}}), [f"{first}: Invalid value: 1: it is no object"])
        specs: list[Any] = [None, {}, {"matchConstraints": None}, {"matchConstraints": {"resourceRules": None}}, {"matchResources": {"resourceRules": [1]}}]
        for spec in specs:
            self.assertEqual(told(POLICY, spec), [])
        self.assertEqual(told("ConfigMap", {"matchConstraints": {"resourceRules": [1]}}), [])

    def test_lines(self) -> None:
        rule = '{"apiGroups": [],\n"apiVersions": ["v1"],\n"operations": ["create"]}'
        text = '{"metadata": {},\n"spec": {"matchConstraints": {"resourceRules": [%s]}}}' % rule
        spec = {"matchConstraints": {"resourceRules": [{"apiGroups": [], "apiVersions": ["v1"], "operations": ["create"]}]}}
        path = str(self.file("p.json", text))
        with self.assertRaises(NoState) as raised:
            refuse_rules([thing(POLICY, spec, path), thing(POLICY, spec, "other.yaml")])
        lines = [line.split(" ")[0].removeprefix(f"{self.folder}/") for line in raised.exception.lines]
        # the resources would be in the rule, which begins in line 2
        self.assertEqual(lines, ["p.json:4:", "p.json:2:", "p.json:2:", *["other.yaml:1:"] * 3])


if __name__ == "__main__":
    unittest.main()
