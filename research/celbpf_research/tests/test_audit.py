"""The Deployments of an audit, whose numbers are worked out by the remainders that make them."""

import json
import tempfile
import unittest
from collections import Counter
from pathlib import Path
from typing import Any

from ..measures import audit


class Audit(unittest.TestCase):
    def test_numbers(self) -> None:
        with tempfile.TemporaryDirectory() as folder:
            path = Path(folder, "deployments.json")
            things = audit.write(path)
            self.assertEqual(json.loads(path.read_text())["items"], things)
        policies, spaces = audit.counted(things)
        # of 0 to 9,999: 435 are 7 mod 23 and 345 are 3 mod 29, 15 of them both (122 mod 667); 909 are 4 mod 11; 2,000 0 mod 5
        denied = {"containers": 435 + 345 - 15, "replicas": 909}
        self.assertEqual({name: count["denied"] for name, count in policies.items() if count["denied"]}, denied)
        self.assertEqual({name: count["warned"] for name, count in policies.items() if count["warned"]}, {"owner": 2000})
        self.assertEqual({count["objects"] for count in spaces.values()}, {1250})

    def test_faults(self) -> None:
        things = [audit.deployment(number) for number in range(20)]
        policies, spaces = audit.counted(things)
        results = [{"object": {"name": one["metadata"]["name"]}, "outcome": "denied" if "denied" in audit.found_in(one).values() else "allowed"}
                   for one in things]
        report: dict[str, Any] = {"summary": {"objects": 20}, "byPolicy": policies, "byNamespace": spaces, "results": results}
        self.assertEqual(audit.faults(report, things), [])
        changes: list[tuple[str, Any]] = [
            ("byPolicy", {**policies, "owner": Counter()}), ("byNamespace", {**spaces, "shop": {}}), ("summary", {"objects": 19}),
            ("results", [{**results[0], "outcome": "denied"}, *results[1:]]), ("results", results[1:]),
        ]
        for key, value in changes:
            with self.subTest(key):
                self.assertEqual(len(audit.faults({**report, key: value}, things)), 1)
