"""Why constraints do not match: what is asked of the gatekeeper, and what is told by its findings."""

import unittest
from typing import Any

from ..vapctl.cluster import State, namespace_named
from ..vapctl.inputs import Place
from ..vapctl.matching import Asked, parts_of, requirements, told, whole
from ..vapctl.probes import EVERY_RULE, Found

RULE = {"apiGroups": ["", "apps"], "apiVersions": ["v1"], "operations": ["CREATE"], "resources": ["pods/exec"], "scope": "Cluster"}


def asked(**changed: Any) -> Asked:
    """A request for a Deployment in the namespace dev."""
    resource = {"group": "apps", "version": "v1", "resource": "deployments"}
    request: dict[str, Any] = {"operation": "UPDATE", "resource": resource, "namespace": "dev", "name": "web"}
    request["object"] = {"metadata": {"labels": {"a": "b"}}}
    return Asked({**request, **changed}, State([namespace_named("dev", Place("here"))]))


def lines(constraints: dict[str, Any], matched: set[str], request: Asked) -> list[str]:
    """What is told, if the parts that begin so match."""
    parts = parts_of(constraints, request)
    found = {id(one): Found(["matched"] * one.told.startswith(tuple(matched))) for top in parts for one in top.all()}
    return told(parts, found)


class Matching(unittest.TestCase):
    def test_requirements_as_kubectl_writes_them(self) -> None:
        selector = {"matchLabels": {"a": "b"}, "matchExpressions": [
            {"key": "c", "operator": "In", "values": ["d", "e"]}, {"key": "f", "operator": "NotIn", "values": ["g"]},
            {"key": "h", "operator": "Exists"}, {"key": "i", "operator": "DoesNotExist"},
        ]}
        self.assertEqual([written for _, written, _ in requirements(selector)], ["a=b", "c in (d, e)", "f notin (g)", "h", "!i"])

    def test_a_selector(self) -> None:
        selector = {"matchLabels": {"a": "c", "kubernetes.io/metadata.name": "dev"}}
        self.assertEqual(lines({"namespaceSelector": selector}, {"kubernetes"}, asked()), [
            "namespaceSelector: a=c is asked, and namespace dev has no label a",
        ])
        self.assertEqual(lines({"objectSelector": selector}, {"kubernetes"}, asked()), [
            "objectSelector: a=c is asked, and the object has a=b",
        ])

    def test_a_rule(self) -> None:
        found = lines({"resourceRules": [RULE]}, {"apiVersions", "apiGroups"}, asked())
        outs = ["operations CREATE, not UPDATE", "resources pods/exec, not deployments", "scope Cluster, not Namespaced"]
        self.assertEqual(found, [f"rule 0: {'; '.join(outs)}"])
        request = asked(subResource="scale", namespace="", name="")
        found = lines({"resourceRules": [{**RULE, "resourceNames": ["a"]}]}, set(), request)
        self.assertIn('apiGroups "", apps, not apps; apiVersions v1, not v1; resources pods/exec, not deployments/scale', found[0])
        self.assertIn("resourceNames a, not none", found[0])

    def test_one_rule_is_enough(self) -> None:
        constraints = {"resourceRules": [RULE, RULE], "excludeResourceRules": [RULE]}
        self.assertEqual(lines(constraints, {"rule 1", "exclude"}, asked()), ["excludeResourceRules 0 leaves it out"])
        self.assertEqual(lines(constraints, {"rule 1"}, asked()), ["its constraints do not match"])

    def test_what_is_asked(self) -> None:
        self.assertEqual(whole({"objectSelector": {}}).constraints, {"resourceRules": [EVERY_RULE]})
        parts = parts_of({"matchPolicy": "Exact", "resourceRules": [RULE]}, asked())
        self.assertEqual(parts[0].probe.constraints, {"matchPolicy": "Exact", "resourceRules": [RULE]})
        self.assertEqual(parts[0].parts[0].probe.constraints["resourceRules"], [{**EVERY_RULE, "operations": ["CREATE"]}])
