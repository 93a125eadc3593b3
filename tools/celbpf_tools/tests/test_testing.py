"""Test files, what is wanted of answers, and how results are told."""

import io
import json
import shutil
import subprocess
import unittest
import xml.etree.ElementTree as xml
from pathlib import Path
from typing import Any

from ..asking.gatekeeper import without_file
from ..asking.policies import whole
from ..asking.program import Program
from ..home import DATA
from ..testing import output
from ..testing.answers import Answer, Asked, Programs, answer_of, failures
from ..testing.cases import Broken, read
from ..testing.coverage import items_of, states
from ..testing.output import Result
from ..testing.reviews import compact, review_of_parts
from .test_documents import Files


class Reading(Files):
    def broken(self, text: str) -> str:
        with self.assertRaises(Broken) as raised:
            read(self.file("tests.json", text))
        return str(raised.exception)

    def test_a_case_takes_what_its_file_has(self) -> None:
        text = '{"policy": "p.json", "params": "a", "cases": [{"object": {}, "params": {"b": 1}, "refusal": "N2"}]}'
        case = read(self.file("tests.json", text)).cases[0]
        self.assertEqual((case.name, case.beside), ("case 0", {"policy": "p.json", "params": {"b": 1}}))

    def test_what_no_test_file_may_say(self) -> None:
        case = '{"policy": "p.json", "cases": [%s]}'
        for text, why in [
            ("[]", "it is not an object with a list `cases`"),
            ('{"cases": []}', "`cases` is not a list with a case in it"),
            ('{"case": []}', "unknown key case; there are cases, policy, namespace, params, cluster, steps"),
            (case % "1", "case 0 is not an object"),
            (case % '{"expect": "allowed"}', "case 0: no review, and no object"),
            (case % '{"review": "a", "object": {}}', "case 0: a review and object: one of the two is enough"),
            (case % '{"object": {}}', "case 0: wants one of expect and refusal"),
            (case % '{"object": {}, "expect": true}', "case 0: expect is not a text"),
            (case % '{"object": {}, "operation": "create", "expect": "allowed"}',
             "case 0: operation is 'create', and not CREATE, UPDATE, DELETE, CONNECT"),
            (case % '{"object": {}, "cluster": "s.json", "expect": "allowed"}', "case 0: cluster and policy: a cluster's state has its own"),
            ('{"cluster": "s.json", "cases": [{"object": {}, "params": {}, "expect": "allowed"}]}',
             "case 0: cluster and params: a cluster's state has its own"),
            ('{"cases": [{"object": {}, "expect": "allowed"}]}',
             "no `policy`, and none of policy.json, policy.yaml, policy.yml beside it"),
        ]:
            with self.subTest(text):
                self.assertEqual(self.broken(text), why)

    def test_a_half_of_a_pair_of_surrogates_is_an_escape(self) -> None:
        self.assertEqual((compact({"a": "é"}), compact({"a": "\ud800"})), ('{"a":"é"}', '{"a":"\\ud800"}'))

    def test_a_review_of_an_object(self) -> None:
        thing = {"apiVersion": "apps/v1", "kind": "Deployment", "metadata": {"name": "web", "namespace": "shop"}}
        review = review_of_parts({"object": thing, "request": {"dryRun": True}}, "u", self.folder)
        self.assertEqual(review["request"], {
            "uid": "u", "operation": "CREATE", "kind": {"group": "apps", "version": "v1", "kind": "Deployment"},
            "resource": {"group": "apps", "version": "v1", "resource": "deployments"},
            "name": "web", "namespace": "shop", "object": thing, "dryRun": True,
        })

    def test_a_review_of_a_namespace_and_of_a_kind_that_is_not_built_in(self) -> None:
        thing = {"apiVersion": "v1", "kind": "Namespace", "metadata": {"name": "shop"}}
        request = review_of_parts({"object": thing}, "u", self.folder)["request"]
        self.assertEqual((request["namespace"], request["resource"]["resource"]), ("shop", "namespaces"))
        thing = {"apiVersion": "a.example/v1", "kind": "Thing", "metadata": {"name": "shop"}}
        self.assertNotIn("resource", review_of_parts({"object": thing}, "u", self.folder)["request"])

    def test_numbers_and_quantities_are_as_check_has_them(self) -> None:
        limits = {"cpu": 0.5, "memory": "1024Mi"}
        spec = {"containers": [{"name": "a", "resources": {"limits": limits}}], "priority": 1e3}
        thing = {"apiVersion": "v1", "kind": "Pod", "metadata": {"name": "a"}, "spec": spec}
        for key in ("object", "oldObject"):
            made = review_of_parts({key: thing}, "u", self.folder)["request"][key]["spec"]
            self.assertEqual(made, {"containers": [{"name": "a", "resources": {"limits": {"cpu": "500m", "memory": "1Gi"}}}], "priority": 1000})
        self.assertEqual(limits, {"cpu": 0.5, "memory": "1024Mi"})

    def test_empty_values_that_an_api_server_leaves_out(self) -> None:
        user = {"username": "", "uid": "", "groups": [], "extra": {}}
        more = {"userInfo": user, "subResource": "", "name": "", "namespace": "", "requestSubResource": "", "dryRun": False}
        thing = {"metadata": {"labels": {}, "name": "a"}, "spec": {"labels": {}}}
        review = review_of_parts({"object": thing, "oldObject": None, "request": more}, "", self.folder)
        kind = {"group": "", "version": "", "kind": ""}
        self.assertEqual(review["request"], {
            "uid": "", "operation": "CREATE", "kind": kind, "userInfo": {}, "dryRun": False, "oldObject": None,
            "object": {"metadata": {"name": "a"}, "spec": {"labels": {}}},
        })
        namespace = {"kind": "Namespace", "metadata": {"name": "a", "labels": {}}}
        written = Path(Asked(self.folder).file(namespace, self.folder)).read_text()
        self.assertEqual(json.loads(written), {"kind": "Namespace", "metadata": {"name": "a"}})

    def test_namespaces_have_the_label_of_their_name(self) -> None:
        space: dict[str, Any] = {"apiVersion": "v1", "kind": "Namespace", "metadata": {"name": "a"}}
        named = {**space, "metadata": {"name": "a", "labels": {"kubernetes.io/metadata.name": "a"}}}
        asked = Asked(self.folder)
        for given, sent in ((space, named), ({"items": [space, {"kind": "Pod"}]}, {"items": [named, {"kind": "Pod"}]})):
            written = asked.file(self.file("a.json", json.dumps(given)).name, self.folder)
            self.assertEqual(json.loads(Path(written).read_text()), sent)
            self.assertEqual(json.loads(Path(asked.file(given, self.folder)).read_text()), sent)
        for name, text in (("b.json", json.dumps(named)), ("c.json", '{"kind": "Namespace"')):
            path = self.file(name, text)
            self.assertEqual(asked.file(name, self.folder), str(path))


class Wanted(Files):
    def case(self, wanted: str) -> Any:
        return read(self.file("tests.json", '{"policy": "p", "cases": [{"object": {}, %s}]}' % wanted)).cases[0]

    def test_what_is_wanted_of_an_answer(self) -> None:
        denied, refused, part = Answer(False, "too many"), Answer(refusal="N2"), Answer(refusal="K6 validation 0 W5 url")
        told = "refused with N2: the review is refused: it is none, or has a number that is no 64-bit int, or is too large"
        for wanted, answer, lines in [
            ('"expect": "denied"', denied, []),
            ('"expect": "allowed"', denied, ["wanted allowed, got denied: 'too many'"]),
            ('"expect": "denied", "contains": "many"', denied, []),
            ('"expect": "denied", "message": "many"', denied, ["wanted the message 'many', got 'too many'"]),
            ('"expect": "denied"', refused, [f"wanted denied, got {told}"]),
            ('"expect": "denied"', part,
             ["wanted denied, got refused with K6 validation 0 W5 url: validation 0: it has a name or a form that is not supported"]),
            ('"expect": "denied"', Answer(refusal="X"), ["wanted denied, got refused with X"]),
            ('"refusal": "N3"', refused, [f"wanted refused with N3, got {told}"]),
            ('"refusal": "N2"', Answer(True), ["wanted refused with N2, got allowed"]),
        ]:
            with self.subTest(wanted):
                self.assertEqual(failures(self.case(wanted), answer), lines)

    def test_lines_of_a_gatekeeper(self) -> None:
        self.assertEqual(answer_of('{"refused":"N4","uid":"u"}'), Answer(refusal="N4"))
        self.assertEqual(answer_of('{"response":{"allowed":true,"uid":"u"}}'), Answer(True))

    def test_the_file_that_a_refusal_names(self) -> None:
        words = ("--policy", Path("a/p.json"), "--params", "a/q.json")
        for line, due in [
            ("celbpf: a/p.json: K6 validation 0 W5 url", "celbpf: K6 validation 0 W5 url"),
            ("celbpf: a/q.json: not found", "celbpf: not found"),
            ("celbpf: b/p.json: K2", "celbpf: b/p.json: K2"),
            ("celbpf: memory", "celbpf: memory"),
            ("", ""),
        ]:
            with self.subTest(line):
                self.assertEqual(without_file(line, words), due)

    def test_only_a_cluster_has_the_gatekeeper_built(self) -> None:
        asked: list[Any] = []

        def find(builds: bool) -> None:
            asked.append(builds)

        programs = Programs(Program(Path("celbpf"), str(self.folder)), find, Asked(self.folder))
        self.assertFalse(programs.is_line("{}"))
        self.assertEqual(asked, [False])
        programs.stream(("--cluster", "state.json"), ["{}"])
        self.assertEqual(asked, [False, True])


class Told(Files):
    RESULTS = [Result("a", "one"), Result("a", "two # 2", ["wanted\n<x>"]), Result("b", "", ["b: missing"], True)]

    def test_tap(self) -> None:
        out = io.StringIO()
        output.tap(self.RESULTS, ["1 of 3 passed"], out)
        self.assertEqual(out.getvalue().splitlines(), [
            "TAP version 13", "1..3", "ok 1 - a: one", "not ok 2 - a: two \\# 2", "# wanted <x>", "not ok 3 - b",
            "# b: missing", "# 1 of 3 passed",
        ])

    def test_lines_on_a_terminal(self) -> None:
        out = io.StringIO()
        output.lines([*self.RESULTS, Result("c", "three")], ["2 of 4 passed"], out)
        plain = out.getvalue().replace(output.GREEN, "").replace(output.RED, "").replace(output.PLAIN, "")
        self.assertEqual(plain.splitlines(), [
            "FAIL a: 1 of 2", "     two # 2", "         wanted <x>", "FAIL b: 0 of 1", "         b: missing", "ok   c: 1 of 1",
            "2 of 4 passed",
        ])

    def test_junit(self) -> None:
        path = self.folder / "out.xml"
        output.junit(self.RESULTS, str(path))
        suites = xml.parse(path).getroot()
        self.assertEqual([suite.attrib for suite in suites], [
            {"name": "a", "tests": "2", "failures": "1", "errors": "0"},
            {"name": "b", "tests": "1", "failures": "0", "errors": "1"},
        ])
        self.assertEqual(suites[0][1][0].attrib, {"message": "wanted\n<x>"})

    @unittest.skipUnless(shutil.which("xmllint"), "xmllint (Debian's libxml2-utils) is not installed")
    def test_junit_by_its_schema(self) -> None:
        strange = "a\x01\x1b[31m \ud800 ]]> & <b> \"c\" 'd'\r\n"
        results = [*self.RESULTS, Result(strange, strange, [strange]), Result(strange, "", [strange], True)]
        reports: list[list[Result]] = [results, []]
        for place, given in enumerate(reports):
            path = self.folder / f"{place}.xml"
            output.junit(given, str(path))
            words = ["xmllint", "--noout", "--schema", str(DATA / "vapctl" / "junit.xsd"), str(path)]
            ran = subprocess.run(words, capture_output=True, text=True, check=False)
            self.assertEqual((ran.returncode, ran.stderr), (0, f"{path} validates\n"))

    def test_coverage_questions(self) -> None:
        policy = whole({"validations": [{"expression": "a.all(x, x ? y : z)"}]})
        items, questions = items_of(policy)
        self.assertEqual(list(items), ["validation 0", "validation 0, `? :` 0 by x"])
        self.assertEqual([question.text for question in questions[1:]], [
            "(a).exists(x, (x))", "(a).exists(x, !(x))", "(a).all(x, ((x) || !(x)))",
        ])
        self.assertEqual(questions[1].needs, ("(a).all(x, true)",))
        self.assertEqual(states(["verdict 3 1", "validation 1 2"], 2), ["true", "an error"])

    def test_coverage_questions_of_optionals_and_pairs(self) -> None:
        for text, due, needed in [
            ("o.optMap(x, x ? y : z)", [
                "(o).optMap(x, (x)).orValue(false)", "(o).optMap(x, !(x)).orValue(false)",
                "(o).optMap(x, ((x) || !(x))).orValue(true)",
            ], "(o).hasValue()"),
            ("m.all(k, v, v ? y : z)", [
                "(m).exists(k, v, (v))", "(m).exists(k, v, !(v))", "(m).all(k, v, ((v) || !(v)))",
            ], "(m).all(k, true)"),
            ("o.orValue(c ? y : z)", [
                "(!(o).hasValue() && (c))", "(!(o).hasValue() && !(c))", "(!!(o).hasValue() || ((c) || !(c)))",
            ], "!(o).hasValue()"),
        ]:
            with self.subTest(text):
                _, questions = items_of(whole({"validations": [{"expression": text}]}))
                self.assertEqual([question.text for question in questions[1:]], due)
                self.assertEqual(questions[1].needs, (needed,))
