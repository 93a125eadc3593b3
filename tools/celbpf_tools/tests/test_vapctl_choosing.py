"""Which params the bindings of a state can choose."""

import unittest
from typing import Any, Optional

from ..vapctl.choosing import chosen, may_choose
from ..vapctl.cluster import BINDING, POLICY, VERSION
from ..vapctl.inputs import Place, Thing

HERE = Place("here")
SECRET = {"apiVersion": "v1", "kind": "Secret"}


def thing(api_version: str, kind: str, name: str, namespace: str = "", **more: Any) -> Thing:
    metadata = {"name": name, **({"namespace": namespace} if namespace else {}), **more.pop("metadata", {})}
    return Thing({"apiVersion": api_version, "kind": kind, "metadata": metadata, **more}, HERE)


def secret(name: str, namespace: str = "a", **labels: str) -> Thing:
    return thing("v1", "Secret", name, namespace, metadata={"labels": labels}, data={"x": "eA=="})


def bound(reference: Optional[dict[str, Any]], kind: Optional[dict[str, str]] = None) -> list[Thing]:
    """A policy with Secrets as params, and a binding of it."""
    spec = {"policyName": "p", "paramRef": reference} if reference is not None else {"policyName": "p"}
    return [thing(VERSION, POLICY, "p", spec={"paramKind": kind or SECRET}), thing(VERSION, BINDING, "b", spec=spec)]


ROWS: list[tuple[dict[str, Any], bool]] = [
    ({"name": "x"}, True), ({"name": "y"}, False), ({"name": "x", "namespace": "a"}, True), ({"name": "x", "namespace": "b"}, False),
    ({"selector": {}}, True), ({"selector": {}, "namespace": "b"}, False),
    ({"selector": {"matchLabels": {"t": "1"}}}, True), ({"selector": {"matchLabels": {"t": "2"}}}, False),
    ({"selector": {"matchLabels": {"u": "1"}}}, False),
    *(({"selector": {"matchExpressions": [{"key": key, "operator": operator, "values": ["1", "3"]}]}}, due) for key, operator, due in (
        ("t", "In", True), ("u", "In", False), ("t", "NotIn", False), ("u", "NotIn", True), ("t", "Exists", True), ("u", "Exists", False),
        ("t", "DoesNotExist", False), ("u", "DoesNotExist", True), ("t", "Like", True),
    )),
    # what is of no form is not left out
    ({"selector": "t"}, True), ({"selector": {"matchLabels": 1, "matchExpressions": [1, {"key": []}]}}, True), ({}, True),
]


class Choosing(unittest.TestCase):
    def test_references(self) -> None:
        for reference, due in ROWS:
            with self.subTest(reference):
                self.assertEqual(may_choose(reference, secret("x", t="1")), due)
        self.assertTrue(may_choose({"name": "x", "namespace": "a"}, thing("x.io/v1", "Limit", "x")))

    def test_what_is_kept(self) -> None:
        things = [secret("x"), secret("y"), thing("v1", "ConfigMap", "x", "a")]
        self.assertEqual([one.title for one in chosen([*bound({"name": "x"}), *things])], ["Secret a/x"])
        self.assertEqual(len(chosen([*bound({"selector": {}}), *things])), 2)
        self.assertEqual(chosen([*bound({"name": "x"})[:1], *things]), [])

    def test_a_kind_of_which_none_can_be_chosen_stays_known(self) -> None:
        for reference in ({"name": "z"}, None):
            kept = chosen([*bound(reference), secret("x", t="1"), secret("y")])
            self.assertEqual([one.value for one in kept], [{**SECRET, "metadata": {"name": "x", "namespace": "a", "labels": {"t": "1"}}}])


if __name__ == "__main__":
    unittest.main()
