"""What is said of a decision of one policy alone."""

import unittest
from typing import Any

from ..vapctl.one_decision import is_asked, notices


class Notices(unittest.TestCase):
    def told(self, spec: dict[str, Any], request: dict[str, Any], has_params: bool = False) -> list[str]:
        return [line.split(",")[0].split(":")[0] for line in notices({"spec": spec}, request, has_params)]

    def test_lines(self) -> None:
        pods = {"resourceRules": [{"resources": ["pods"]}]}
        of_pods, of_jobs = ({"resource": {"resource": name}, "userInfo": {}} for name in ("pods", "jobs"))
        rows: list[tuple[dict[str, Any], dict[str, Any], bool, list[str]]] = [
            ({}, {}, False, []), ({"matchConstraints": pods}, of_pods, False, []),
            ({"matchConstraints": pods}, of_jobs, False, ["its matchConstraints have no rule for jobs"]),
            ({"matchConstraints": pods}, {}, False, []),
            ({"paramKind": {"kind": "ConfigMap"}}, of_pods, False, ["the policy has a paramKind"]),
            ({"paramKind": {"kind": "ConfigMap"}}, of_pods, True, []),
            ({"variables": [{"name": "u", "expression": "request.userInfo"}]}, of_pods, False, []),
            ({"variables": [{"name": "u", "expression": "request.userInfo"}]}, {}, False, ["the policy reads request.userInfo"]),
        ]
        for spec, request, has_params, wanted in rows:
            with self.subTest(spec=spec, request=request):
                self.assertEqual(self.told(spec, request, has_params), wanted)

    def test_rules(self) -> None:
        for resources, wanted in [(["*"], True), (["*/*"], True), (["pods/log"], True), (["*/scale"], True), (["jobs"], False), ([], False)]:
            with self.subTest(resources):
                self.assertEqual(is_asked({"resourceRules": [{"resources": resources}]}, "pods"), wanted)
