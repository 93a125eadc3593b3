"""Reviews of objects in manifests."""

import contextlib
import io
import json
import sys
import unittest
from typing import Any
from unittest import mock

from .. import documents
from ..entry import ended
from ..manifests.kinds import Resources, built_in
from ..manifests.sending import with_name_label
from ..vapctl.main import main
from .test_documents import Files

NODE = '{"apiVersion": "v1", "kind": "Node", "metadata": {"name": "one", "namespace": "x"}}'
WEB = '{"apiVersion": "apps/v1", "kind": "Deployment", "metadata": {"name": "web"%s}, "spec": {"replicas": %d}}'
DEFINITION = """{"apiVersion": "apiextensions.k8s.io/v1", "kind": "CustomResourceDefinition", "metadata": {"name": "teams.x.io"},
"spec": {"group": "x.io", "names": {"kind": "Team", "plural": "teams"}, "scope": "Cluster",
"versions": [{"name": "v1", "served": true}, {"name": "v1alpha1", "served": false}]}}"""
TEAM = '{"apiVersion": "x.io/%s", "kind": "Team", "metadata": {"name": "shop"}}'
# a creation of the deployment, byte for byte
CREATED = (
    '{"apiVersion":"admission.k8s.io/v1","kind":"AdmissionReview","request":{"uid":"1",'
    '"kind":{"group":"apps","version":"v1","kind":"Deployment"},'
    '"resource":{"group":"apps","version":"v1","resource":"deployments"},'
    '"requestKind":{"group":"apps","version":"v1","kind":"Deployment"},'
    '"requestResource":{"group":"apps","version":"v1","resource":"deployments"},'
    '"name":"web","namespace":"default","operation":"CREATE",'
    '"object":{"apiVersion":"apps/v1","kind":"Deployment","metadata":{"name":"web","namespace":"default"},"spec":{"replicas":3}},'
    '"oldObject":null,"dryRun":false,"options":{"apiVersion":"meta.k8s.io/v1","kind":"CreateOptions"}}}\n'
)
# the labels that an API server sets on the namespace shop
NAMED = {"kubernetes.io/metadata.name": "shop"}
MANIFEST = """# Source: shop/templates/namespace.yaml
apiVersion: v1
kind: Namespace
metadata:
  name: shop
---
---
apiVersion: v1
kind: List
items:
- apiVersion: batch/v1
  kind: Job
  metadata: {generateName: job-}
"""


class Ran(Files):
    """Tests that run `vapctl as-reviews`."""

    def ran(self, *words: object) -> tuple[Any, ...]:
        """Its status and both outputs."""
        said, errors = io.StringIO(), io.StringIO()
        with mock.patch.object(sys, "argv", ["vapctl", "as-reviews", *map(str, words)]):
            with contextlib.redirect_stdout(said), contextlib.redirect_stderr(errors):
                return ended("vapctl", main), said.getvalue(), errors.getvalue().replace(f"{self.folder}/", "")

    def requests(self, *words: object) -> list[Any]:
        status, said, errors = self.ran(*words)
        self.assertEqual((status, errors), (0, ""))
        return [json.loads(line)["request"] for line in said.splitlines()]


class Making(Ran):
    def test_a_creation(self) -> None:
        self.assertEqual(self.ran(self.file("web.json", WEB % ("", 3))), (0, CREATED, ""))

    def test_where_an_object_is(self) -> None:
        web, node = self.file("web.json", WEB % (', "namespace": "shop"', 3)), self.file("node.json", NODE)
        self.assertEqual(self.requests(web, "--namespace", "prod")[0]["namespace"], "shop")
        there = self.requests(self.file("web.json", WEB % ("", 3)), "--namespace", "prod")[0]
        self.assertEqual((there["namespace"], there["object"]["metadata"]["namespace"]), ("prod", "prod"))
        request = self.requests(node)[0]
        self.assertNotIn("namespace", request)
        self.assertEqual(request["object"]["metadata"], {"name": "one"})

    def test_an_update(self) -> None:
        web, other = self.file("web.json", WEB % ("", 3)), self.file("other.json", WEB % (', "namespace": "shop"', 3))
        old = self.file("old.json", WEB % (', "namespace": "default"', 1))
        updated, created = self.requests("--old", old, web, other)
        self.assertEqual((updated["operation"], updated["options"]["kind"]), ("UPDATE", "UpdateOptions"))
        self.assertEqual(updated["oldObject"], json.loads(WEB % (', "namespace": "default"', 1)))
        self.assertEqual((created["uid"], created["operation"], created["oldObject"]), ("2", "CREATE", None))

    def test_a_user(self) -> None:
        node = self.file("node.json", NODE)
        self.assertNotIn("userInfo", self.requests(node)[0])
        users: list[tuple[str, list[str], list[str]]] = [
            ("ann", [], ["system:authenticated"]),
            ("ann", ["dev", "ops"], ["dev", "ops", "system:authenticated"]),
            ("ann", ["system:authenticated", "dev"], ["system:authenticated", "dev"]),
            ("ann", ["system:unauthenticated"], ["system:unauthenticated"]),
            ("system:anonymous", [], ["system:unauthenticated"]),
            ("system:anonymous", ["system:authenticated"], ["system:authenticated", "system:unauthenticated"]),
            ("system:serviceaccount:shop:web", [],
             ["system:serviceaccounts", "system:serviceaccounts:shop", "system:authenticated"]),
            ("system:serviceaccount:shop:web", ["dev"], ["dev", "system:authenticated"]),
        ]
        for user, given, groups in users:
            with self.subTest(user=user, given=given):
                words = [word for group in given for word in ("--group", group)]
                request = self.requests("--user", user, *words, node)[0]
                self.assertEqual(request["userInfo"], {"username": user, "groups": groups})

    def test_empty_values_are_left_out(self) -> None:
        empty = {"labels": {}, "annotations": {}, "finalizers": [], "generateName": "", "ownerReferences": None}
        metadata: dict[str, Any] = {"name": "shop", **empty}
        space: dict[str, Any] = {"apiVersion": "v1", "kind": "Namespace", "metadata": metadata, "spec": {"finalizers": []}}
        old = {**space, "metadata": {**metadata, "labels": {"a": ""}}}
        created = self.requests(self.file("space.json", json.dumps(space)))[0]
        self.assertEqual(created["object"], {**space, "metadata": {"name": "shop", "labels": NAMED}})
        files = self.file("old.json", json.dumps(old)), self.file("space.json", json.dumps(space))
        updated = self.requests("--old", *files)[0]
        self.assertEqual(updated["oldObject"]["metadata"], {"name": "shop", "labels": {"a": "", **NAMED}})
        web = WEB.replace('"web"%s', '"", "generateName": "web-", "namespace": ""%s') % ("", 3)
        request = self.requests(self.file("web.json", web))[0]
        self.assertNotIn("name", request)
        self.assertEqual(request["object"]["metadata"], {"generateName": "web-", "namespace": "default"})

    def test_the_label_of_a_namespace(self) -> None:
        space = {"apiVersion": "v1", "kind": "Namespace"}
        rows: list[tuple[Any, Any]] = [
            ({"name": "shop"}, {"name": "shop", "labels": NAMED}),
            ({"name": "shop", "labels": None}, {"name": "shop", "labels": NAMED}),
            ({"name": "shop", "labels": {"a": "b", **{key: "other" for key in NAMED}}}, {"name": "shop", "labels": {"a": "b", **NAMED}}),
            # the name is not known yet, or what is there is refused
            ({"generateName": "shop-"}, {"generateName": "shop-"}), ({"name": 1}, {"name": 1}), (None, None),
            ({"name": "shop", "labels": ["a"]}, {"name": "shop", "labels": ["a"]}),
        ]
        for metadata, sent in rows:
            with self.subTest(metadata):
                self.assertEqual(with_name_label({**space, "metadata": metadata}), {**space, "metadata": sent})
        other = {"apiVersion": "x.io/v1", "kind": "Namespace", "metadata": {"name": "shop"}}
        self.assertEqual(with_name_label(other), other)

    def test_custom_resources(self) -> None:
        team = self.file("team.json", TEAM % "v1")
        state = self.file("state.json", '{"apiVersion": "v1", "kind": "List", "items": [%s]}' % DEFINITION)
        request = self.requests("--cluster", state, team)[0]
        self.assertEqual(request["resource"], {"group": "x.io", "version": "v1", "resource": "teams"})
        self.assertNotIn("namespace", request)
        with_definition = self.requests(team, self.file("definition.json", DEFINITION))
        self.assertEqual([one["kind"]["kind"] for one in with_definition], ["Team", "CustomResourceDefinition"])

    @unittest.skipIf(documents.yaml_package() is None, "PyYAML is not installed")
    def test_yaml_of_several_documents(self) -> None:
        space, job = self.requests(self.file("all.yaml", MANIFEST))
        self.assertEqual((space["resource"]["resource"], space["name"], space["namespace"]), ("namespaces", "shop", "shop"))
        self.assertEqual(space["object"]["metadata"], {"name": "shop", "labels": NAMED})
        self.assertEqual((job["resource"]["resource"], job["namespace"], job.get("name")), ("jobs", "default", None))


class Refusing(Ran):
    def test_groups_without_a_user_and_names_without_a_letter(self) -> None:
        node = self.file("node.json", NODE)
        for words, told in (
            (["--group", "dev"], "--group needs a --user"), (["--user", ""], "a user or a group has no name"),
            (["--user", "ann", "--group", ""], "a user or a group has no name"), (["-n", ""], "the namespace of -n has no name"),
        ):
            with self.subTest(words):
                self.assertEqual(self.ran(*words, node), (2, "", f"vapctl: {told}\n"))

    def test_unknown_kinds(self) -> None:
        team, node = self.file("team.json", TEAM % "v1alpha1"), self.file("node.json", NODE)
        state = self.file("state.json", DEFINITION)
        status, lines, errors = self.ran("--cluster", state, node, team)
        self.assertEqual((status, json.loads(lines)["request"]["uid"], errors), (3, "1", (
            "vapctl: team.json:1: Team shop: the kind x.io/v1alpha1 Team is not known: its CustomResourceDefinition is not among "
            "the inputs; --skip-unknown leaves it out\n")))
        status, lines, errors = self.ran("--cluster", state, "--skip-unknown", team, node)
        self.assertEqual((status, errors, json.loads(lines)["request"]["uid"]), (0, "", "1"))

    def test_documents_that_are_no_objects(self) -> None:
        for text, why in [
            ("[]", "a.json:1: it is not an object"),
            ('{"apiVersion": "v1"}', "a.json:1: the object has no kind"),
            ('{"apiVersion": "v1", "kind": "Pod"}', "a.json:1: Pod: the object has no metadata"),
            ('{"apiVersion": "v1", "kind": "List", "items": [1]}', "a.json:1: it is not an object"),
        ]:
            with self.subTest(text):
                self.assertEqual(self.ran(self.file("a.json", text)), (3, "", f"vapctl: {why}\n"))

    def test_no_object(self) -> None:
        empty = self.file("a.json", '{"apiVersion": "v1", "kind": "List", "items": []}')
        self.assertEqual(self.ran(empty), (3, "", "vapctl: there is no object; with --allow-empty the status is 0\n"))
        self.assertEqual(self.ran(empty, "--allow-empty"), (0, "", ""))

    def test_what_cannot_be_written_or_read(self) -> None:
        web = self.file("web.json", WEB % ("", 3))
        old = self.file("old.json", (WEB % ("", 1)).replace("apps/v1", "apps/v1beta1"))
        # apps/v1beta1 is not known, so it is unknown before anything is compared
        self.assertEqual(self.ran("--old", old, web)[:2], (3, ""))
        nan = self.file("nan.json", '{"apiVersion": "v1", "kind": "Node", "metadata": {"name": "one"}, "a": NaN}')
        self.assertEqual(self.ran(nan), (3, "", "vapctl: nan.json: NaN is no JSON\n"))
        self.assertEqual(self.ran(self.folder / "none.json"), (3, "", "vapctl: none.json: No such file or directory\n"))

    def test_an_old_object_of_another_version(self) -> None:
        scaler = '{"apiVersion": "autoscaling/%s", "kind": "HorizontalPodAutoscaler", "metadata": {"name": "web"}}'
        old, new = self.file("old.json", scaler % "v1"), self.file("new.json", scaler % "v2")
        self.assertEqual(self.ran("--old", old, new), (3, "", (
            "vapctl: new.json:1: HorizontalPodAutoscaler default/web: HorizontalPodAutoscaler web was autoscaling/v1 and is "
            "autoscaling/v2: an API server converts it\n")))


class Tables(unittest.TestCase):
    def test_sixty_kinds_are_built_in(self) -> None:
        found = {(one.group, one.kind) for one in built_in()}
        self.assertEqual(len(found), 60)

    def test_resources_that_no_server_converts(self) -> None:
        versions = [{"name": "v1", "served": True}, {"name": "v2", "served": True}, {"name": "v3", "served": False}]
        names = {"kind": "Widget", "plural": "widgets"}
        definition = {"apiVersion": "apiextensions.k8s.io/v1", "kind": "CustomResourceDefinition"}
        one: dict[str, Any] = {**definition, "spec": {"group": "one.io", "names": names, "scope": "Cluster", "versions": versions[::2]}}
        two: dict[str, Any] = {**definition, "spec": {"group": "two.io", "names": names, "scope": "Cluster", "versions": versions}}
        resources = Resources()
        resources.define([one, two])
        for group, plural, is_alone in [
            ("", "namespaces", True), ("apps", "deployments", True), ("autoscaling", "horizontalpodautoscalers", False),
            ("", "events", False), ("events.k8s.io", "events", False), ("one.io", "widgets", True), ("two.io", "widgets", False),
            ("three.io", "widgets", False),
        ]:
            with self.subTest(group=group, plural=plural):
                self.assertEqual(resources.is_alone(group, plural), is_alone)

    def test_resources_that_are_not_guessed(self) -> None:
        resources = Resources()
        for version, kind, plural, namespaced in [
            ("v1", "Endpoints", "endpoints", True), ("networking.k8s.io/v1", "NetworkPolicy", "networkpolicies", True),
            ("v1", "Event", "events", True), ("events.k8s.io/v1", "Event", "events", True),
            ("rbac.authorization.k8s.io/v1", "ClusterRole", "clusterroles", False),
            ("storage.k8s.io/v1", "StorageClass", "storageclasses", False),
        ]:
            with self.subTest(kind):
                found = resources.of({"apiVersion": version, "kind": kind})
                self.assertEqual(found and (found.plural, found.namespaced), (plural, namespaced))
        self.assertIsNone(resources.of({"apiVersion": "extensions/v1beta1", "kind": "Deployment"}))
