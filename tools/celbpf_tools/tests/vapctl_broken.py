"""Broken inputs, and the runs of each subcommand on one."""

import json
import os
from collections.abc import Iterator
from pathlib import Path

from ..home import DATA, EXAMPLES

OBJECT = b'{"apiVersion": "v1", "kind": "ConfigMap", "metadata": %s}'
POLICY = b"apiVersion: admissionregistration.k8s.io/v1\nkind: ValidatingAdmissionPolicy\nmetadata: {name: p}\nspec: %s\n"
BINDING = b"apiVersion: admissionregistration.k8s.io/v1\nkind: ValidatingAdmissionPolicyBinding\nmetadata: {name: b}\nspec: %s\n"
REVIEW = b'{"apiVersion": "admission.k8s.io/v1", "kind": "AdmissionReview", "request": %s}'
INPUTS = {
    "empty.yaml": b"",
    "blank.json": b" \n\t\n",
    "comment.yaml": b"# nothing\n---\n",
    "text.yaml": b"just a text\n",
    "null.json": b"null",
    "number.json": b"1",
    "list.json": b"[1, {}, null]",
    "half.json": b'{"apiVersion": "v1", "kind"',
    "comma.json": b'{"a": 1,}',
    "two.json": b'{} {"a": }',
    "nan.json": OBJECT % b'{"name": NaN}',
    "huge-number.json": OBJECT % (b'{"name": "a", "n": ' + b"1" * 5000 + b"}"),
    "infinite.json": OBJECT % b'{"name": "a", "n": 1e999}',
    "deep.json": b"[" * 100_000,
    "deep-closed.json": b"[" * 45_000 + b"]" * 45_000,
    "deep-object.json": OBJECT % (b'{"name": "a", "n": ' + b"[" * 500 + b"]" * 500 + b"}"),
    "deep.yaml": b"a: " + b"[" * 20_000,
    "deep-dashes.yaml": b"- " * 50_000 + b"a\n",
    "bytes.yaml": bytes(range(256)),
    "utf16.json": '{"apiVersion": "v1"}'.encode("utf-16"),
    "latin.yaml": b"a: \xe9\n",
    "nul.yaml": b"a: \x00\n",
    "tab.yaml": b"a:\n\t- b\n",
    "template.yaml": b"{{- if .Values.a }}\napiVersion: v1\n{{ end }}\n",
    "colon.yaml": b"a: b: c\n",
    "alias.yaml": b"a: *none\n",
    "cycle.yaml": b"apiVersion: v1\nkind: ConfigMap\nmetadata: &m {name: a, labels: *m}\n",
    "bomb.yaml": b"a0: &a0 [1, 1]\n" + b"".join(b"a%d: &a%d [*a%d, *a%d]\n" % (n, n, n - 1, n - 1) for n in range(1, 80)),
    "tag.yaml": b"a: !!python/object/apply:os.system [id]\n",
    "types.yaml": b"apiVersion: v1\nkind: ConfigMap\nmetadata: {name: !!binary AA==, labels: !!set {a}}\n1: {? [a] : b}\n",
    "date.yaml": b"apiVersion: v1\nkind: ConfigMap\nmetadata: {name: 2026-11-29, creationTimestamp: !!timestamp 2026-11-29}\n",
    "no-metadata.yaml": b"apiVersion: v1\nkind: ConfigMap\n",
    "metadata.json": OBJECT % b'["name"]',
    "name.json": OBJECT % b'{"name": {"a": 1}, "namespace": 7, "labels": "x"}',
    "surrogate.json": OBJECT % b'{"name": "\\ud800", "labels": {"\\udfff": "\\u0000"}}',
    "terminal.json": OBJECT % b'{"name": "\\u001b[31m\\r\\n::error::"}',
    "kinds.json": b'{"apiVersion": ["v1"], "kind": {"a": 1}, "metadata": {}}',
    "items.json": b'{"apiVersion": "v1", "kind": "List", "items": [1, null, {"kind": "List", "apiVersion": "v1", "items": [[]]}]}',
    "spec.yaml": POLICY % b"[]",
    "spec-null.yaml": POLICY % b"null",
    "policy.yaml": POLICY % b"{validations: [{expression: 'a ? ? b'}, {expression: 1}], matchConstraints: 7}",
    "policy-types.yaml": POLICY % b"{validations: {a: 1}, variables: [null], matchConditions: text, paramKind: [], failurePolicy: 3}",
    "policy-large.yaml": POLICY % (b"{validations: [{expression: '" + b"a" * 70_000 + b"'}]}"),
    "policy-params.yaml": POLICY % b"{paramKind: {apiVersion: 1, kind: {}}, matchConstraints: {resourceRules: [{}]}, validations: [{expression: 'true'}]}",
    "twice.yaml": (POLICY % b"{validations: [{expression: 'true'}]}" + b"---\n") * 2,
    "binding.yaml": BINDING % b"{policyName: [1], validationActions: Deny, paramRef: 3}",
    "binding-spec.yaml": POLICY % b"{validations: [{expression: 'true'}]}" + b"---\n" + BINDING % b"text",
    "review.json": REVIEW % b"null",
    "review-number.json": REVIEW % b'{"uid": "u", "object": {"n": 1e999}}',
    "review-parts.json": REVIEW % b'{"uid": 1, "object": [], "oldObject": "a", "kind": 3}',
    "crd.json": b'{"apiVersion": "apiextensions.k8s.io/v1", "kind": "CustomResourceDefinition", "metadata": {"name": "a"}, "spec": {"versions": [3]}}',
    "tests.json": b'{"cases": [{"name": 1}, 3], "policy": []}',
    "tests-parts.json": b'{"policy": "empty.yaml", "cases": [{"object": {"metadata": []}, "expect": "allowed", "params": [1]}]}',
}
GOOD = EXAMPLES / "replicas" / "policy.json"
THING = DATA / "vapctl" / "manifests" / "02-too-many.yaml"
REVIEW_FILE = EXAMPLES / "replicas" / "five.review.json"
# how many launches an editor makes of an input
LAUNCHES = 6
# the name of the test file that names an input
TESTS = "tests-of-input.json"


def tests_of(path: Path) -> bytes:
    """A test file with a case for each place that may name a file, each with this one."""
    thing: dict[str, object] = {"policy": str(GOOD), "object": {}, "expect": "allowed"}
    review: dict[str, object] = {"policy": str(GOOD), "review": str(path), "expect": "allowed"}
    state: dict[str, object] = {"cluster": str(path), "object": {}, "expect": "allowed"}
    named = [thing | {key: str(path)} for key in ("policy", "object", "oldObject", "params", "namespace")]
    return json.dumps({"cases": [*named, state, review]}).encode()


def launches(path: Path) -> bytes:
    """Messages of an editor that launches a file in each place that takes one, and then disconnects."""
    given: list[tuple[str, dict[str, object]]] = [("initialize", {})]
    files: dict[str, object] = {"policy": GOOD, "review": REVIEW_FILE}
    for key in ("policy", "review", "namespace", "params"):
        given += [("launch", {**files, key: path}), ("terminate", {})]
    given += [("launch", {"image": path}), ("terminate", {}), ("launch", {**files, "review": path, "object": "a", "profile": True}), ("disconnect", {})]
    texts = [json.dumps({"seq": place, "type": "request", "command": name, "arguments": words}, default=str)
             for place, (name, words) in enumerate(given, 1)]
    return b"".join(b"Content-Length: %d\r\n\r\n%s" % (len(text), text.encode()) for text in texts)


def commands(path: Path) -> Iterator[list[object]]:
    """The runs of each subcommand on a file, in each place that takes one."""
    yield ["check", "--policy", GOOD, path]
    yield ["check", "--policy", GOOD, "-"]
    yield ["check", "--policy", path, THING, "-o", "sarif"]
    yield ["check", "--cluster", path, THING, "-o", "json"]
    yield ["check", "--policy", GOOD, "--params", path, THING, "-o", "junit"]
    yield ["check", "--policy", GOOD, "--old", path, path, "--skip-unknown", "-o", "policyreport"]
    yield ["check", "--policy", GOOD, path, "--operation", "DELETE", "-o", "github"]
    yield ["audit", "--policy", GOOD, path, "-v"]
    yield ["audit", "--cluster", path, path]
    yield ["state", "--from", path]
    yield ["test", path]
    yield ["test", "--coverage", path, "-o", "junit"]
    yield ["test", "--coverage", path.with_name(TESTS), "-o", "tap"]
    yield ["why", "--case", "case 0", path.with_name(TESTS)]
    yield ["why", GOOD, path]
    yield ["why", path, THING]
    yield ["why", "--params", path, "--namespace-object", path, GOOD, THING]
    yield ["why", "--case", "a", path]
    yield ["why", "--cluster", path, THING]
    yield ["why", "--policy", path, "--policy", GOOD, THING]
    yield ["why", "--policy", GOOD, path]
    yield ["debug", GOOD, path]
    yield ["debug", "-", THING]
    yield ["reviews", path, REVIEW_FILE]
    yield ["reviews", GOOD, path]
    yield ["reviews", GOOD, "-"]
    yield ["reviews", "--params", path, "--namespace-object", path, GOOD, REVIEW_FILE]
    yield ["as-reviews", path]
    yield ["as-reviews", "-", "--skip-unknown"]
    yield ["as-reviews", "--cluster", path, "--old", path, THING]
    yield ["asm", path]
    yield ["asm", "-", "-o", os.devnull]
    yield ["translate", path]
    yield ["lint", path]
    yield ["lint", "-", "-o", "json"]
    yield ["compile", path, "-o", os.devnull]
