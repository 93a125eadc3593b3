"""The forms of reports, by their schemas."""

import argparse
import importlib
import importlib.util
import io
import json
import shutil
import subprocess
import unittest
import xml.etree.ElementTree as xml
from typing import Any

from .. import documents
from ..home import DATA
from ..vapctl.inputs import Place, Thing, Trouble
from ..vapctl.reports import forms, github, jsons, junit, policyreport, sarif, table
from ..vapctl.reports.words import FormWord
from ..vapctl.results import ALLOWED, AUDIT, DENIED, DENY, ERROR, UNDECIDED, WARN, Finding, Report, Result
from .vapctl_crds import object_faults

SCHEMAS = DATA / "vapctl"
HAS_JSONSCHEMA = importlib.util.find_spec("jsonschema") is not None


def result(name: str, place: Place, outcome: str, *findings: Finding, namespace: str = "dev") -> Result:
    """The result of a ConfigMap."""
    value = {"apiVersion": "v1", "kind": "ConfigMap", "metadata": {"name": name}}
    return Result(Thing(value, place), namespace, outcome, "configmaps is forbidden" * (outcome == DENIED), list(findings))


def report() -> Report:
    """A report with each outcome, each action, and texts that no form may have as they are."""
    strange = "a\x1b[31m b\x00 <c> ]]> & \"d\" 'e'\r\n::error::f % \ud800 \U0001f600"
    return Report(
        [
            result("clean", Place("a.yaml", 1), ALLOWED),
            result("bad", Place("a.yaml", 7), DENIED, Finding("p", "b", DENY, "no"), Finding("q", "", WARN, "hm"), Finding("q", "", AUDIT, "so")),
            result("warned", Place("b c,ä%.yaml", 3), ALLOWED, Finding("q", "c", WARN, strange)),
            result("open", Place("stdin", 9), UNDECIDED, Finding("", "", ERROR, f"not decided: {strange}"), namespace=""),
            result("strange\x07\n", Place("d\ne.yaml", 0), DENIED, Finding("p,:%", "b", DENY, strange), namespace="n"),
        ],
        [Trouble(Place("broken.yaml", 4), "no YAML"), Trouble(Place("gone.yaml"), "No such file or directory")],
        ["p", "q"],
    )


def written(write: Any, *more: Any, of: Any = None) -> str:
    """What a form writes, which has to be text that UTF-8 has."""
    out = io.StringIO()
    write(of or report(), out, *more)
    out.getvalue().encode()
    return out.getvalue()


class Forms(unittest.TestCase):
    def valid(self, document: Any, schema: str) -> None:
        jsonschema = importlib.import_module("jsonschema")
        jsonschema.Draft7Validator(json.loads((SCHEMAS / schema).read_text())).validate(document)

    def test_status(self) -> None:
        whole = report()
        self.assertEqual(whole.status, 3)
        self.assertEqual(Report(whole.results[:3]).status, 1)
        self.assertEqual(Report(whole.results[:1]).status, 0)
        self.assertEqual(Report([], whole.troubles).status, 3)

    def test_table(self) -> None:
        found = written(table.write, False, False, of=Report(report().results[:2]))
        wanted = (
            "a.yaml:7: ConfigMap dev/bad\n"
            "  denied  p  no\n"
            "  warns   q  hm\n"
            "  audits  q  so\n"
            "2 objects: 1 allowed, 1 denied, 1 warning, 1 finding for the audit log\n"
        )
        self.assertEqual(found, wanted)
        self.assertIn("a.yaml:1: ConfigMap dev/clean\n  allowed\n", written(table.write, False, True))
        self.assertIn("\x1b[31mdenied\x1b[0m     p     no\n", written(table.write, True, False))

    def test_long_names_of_policies(self) -> None:
        long = "a" * 60
        findings = Finding("p", "", DENY, "no"), Finding(long, "", WARN, "hm")
        found = written(table.write, False, False, of=Report([result("bad", Place("a.yaml", 7), DENIED, *findings)])).splitlines()
        self.assertEqual(found[1:3], [f"  denied  {'p':60}  no", f"  warns   {long}  hm"])

    def test_what_is_audited_beside_another_action(self) -> None:
        findings = Finding("p", "", WARN, "hm", True), Finding("q", "", AUDIT, "so", True), Finding("r", "", DENY, "no")
        found = json.loads(written(jsons.write, of=Report([result("bad", Place("a.yaml", 7), DENIED, *findings)])))
        self.assertEqual(found["byPolicy"], {"p": {"warned": 1, "audited": 1}, "q": {"audited": 1}, "r": {"denied": 1}})
        self.assertEqual(found["byKind"]["ConfigMap"], {"objects": 1, "denied": 1, "warned": 1, "audited": 1})
        self.assertEqual([one.get("audited") for one in found["results"][0]["findings"]], [True, True, None])
        self.assertEqual((found["summary"]["warnings"], found["summary"]["audited"]), (1, 1))

    def test_no_text_is_obeyed_by_a_terminal(self) -> None:
        found = written(table.write, False, True)
        self.assertFalse(set(found) & set(map(chr, [*range(10), *range(11, 32), 127])))
        self.assertIn("5 objects: 2 allowed, 2 denied, 1 not decided, 2 inputs not read, 2 warnings, 1 finding for the audit log", found)

    def test_json(self) -> None:
        found = json.loads(written(jsons.write))
        self.assertEqual(found["summary"], {"objects": 5, "allowed": 2, "denied": 2, "undecided": 1, "leftOut": 0, "warnings": 2, "audited": 1, "errors": 3})
        self.assertEqual([one["outcome"] for one in found["results"]], ["allowed", "denied", "allowed", "undecided", "denied"])
        self.assertEqual(found["results"][1]["findings"][0], {"policy": "p", "binding": "b", "action": "deny", "message": "no"})
        self.assertEqual(found["notRead"][0], {"file": "broken.yaml", "line": 4, "message": "no YAML"})
        self.assertEqual(found["status"], 3)

    def test_junit(self) -> None:
        found = xml.fromstring(written(junit.write))
        self.assertEqual([suite.get("name") for suite in found][:2], ["a.yaml", "b c,ä%.yaml"])
        self.assertEqual({key: found[0].get(key) for key in ("tests", "failures", "errors")}, {"tests": "2", "failures": "1", "errors": "0"})
        self.assertEqual([one.get("message") for one in found.iter("failure")][0], "a.yaml:7: p: no")
        self.assertEqual(len(list(found.iter("error"))), 3)
        self.assertEqual(sum(int(suite.get("tests", "")) for suite in found), 7)

    @unittest.skipUnless(shutil.which("xmllint"), "xmllint (Debian's libxml2-utils) is not installed")
    def test_junit_by_its_schema(self) -> None:
        words = ["xmllint", "--noout", "--schema", str(SCHEMAS / "junit.xsd"), "-"]
        for of in (report(), Report()):
            ran = subprocess.run(words, input=written(junit.write, of=of), capture_output=True, text=True, check=False)
            self.assertEqual((ran.returncode, ran.stderr), (0, "- validates\n"))

    def test_sarif(self) -> None:
        (run,) = json.loads(written(sarif.write))["runs"]
        rules = [rule["id"] for rule in run["tool"]["driver"]["rules"]]
        self.assertEqual(rules, ["p", "q", "not-decided", "p,:%"])
        for one in run["results"]:
            self.assertEqual(one["ruleId"], rules[one["ruleIndex"]])
        place = run["results"][0]["locations"][0]["physicalLocation"]
        self.assertEqual(place, {"artifactLocation": {"uri": "a.yaml"}, "region": {"startLine": 7}})
        self.assertEqual(run["results"][3]["locations"][0]["physicalLocation"]["artifactLocation"]["uri"], "b%20c%2C%C3%A4%25.yaml")
        self.assertNotIn("physicalLocation", run["results"][4]["locations"][0])
        self.assertEqual([one["level"] for one in run["results"]], ["error", "warning", "note", "warning", "error", "error"])

    @unittest.skipUnless(HAS_JSONSCHEMA, "jsonschema is not installed")
    def test_sarif_by_its_schema(self) -> None:
        for of in (report(), Report()):
            self.valid(json.loads(written(sarif.write, of=of)), "sarif.json")

    def test_github(self) -> None:
        lines = written(github.write).splitlines()
        self.assertEqual(lines[0], "::error file=a.yaml,line=7,title=p::ConfigMap dev/bad: no")
        self.assertEqual(lines[1], "::warning file=a.yaml,line=7,title=q::ConfigMap dev/bad: hm")
        self.assertEqual(lines[2], "::notice file=a.yaml,line=7,title=q::ConfigMap dev/bad: so")
        self.assertTrue(lines[3].startswith("::warning file=b c%2Cä%25.yaml,line=3,title=q::ConfigMap dev/warned: a\\u001b[31m b"))
        self.assertTrue(lines[4].startswith("::error::ConfigMap open: not decided: "))
        self.assertIn("title=p%2C%3A%25::", lines[5])
        self.assertEqual(lines[6], "::error file=broken.yaml,line=4,title=not read::no YAML")
        self.assertEqual(len(lines), 9)

    def test_policyreport(self) -> None:
        found = json.loads(written(policyreport.write))
        self.assertEqual([(one["kind"], one["metadata"].get("namespace")) for one in found["items"]],
                         [("ClusterPolicyReport", None), ("PolicyReport", "dev"), ("PolicyReport", "n")])
        self.assertEqual(found["items"][1]["summary"], {"pass": 1, "fail": 1, "warn": 3, "error": 0, "skip": 0})
        for one in found["items"]:
            self.assertEqual(sum(one["summary"].values()), len(one["results"]))

    @unittest.skipIf(documents.yaml_package() is None, "PyYAML is not installed")
    def test_policyreport_by_its_definition(self) -> None:
        definitions = SCHEMAS / "policyreport-crd.yaml"
        for one in json.loads(written(policyreport.write))["items"]:
            self.assertEqual(object_faults(one, definitions), [])
            self.assertEqual(object_faults({**one, "metadata": {"name": "A"}}, definitions)[0], "its name is none")
            spoiled = {**one, "results": [{"result": "good", "resources": [{"line": 1}]}], "more": {}}
            self.assertEqual(object_faults(spoiled, definitions), [
                ".results[0].policy is missing", ".results[0].result is good", ".results[0].resources[0].line is not defined",
                ".more is not defined",
            ])

    def test_words(self) -> None:
        self.assertEqual(FormWord(forms.NAMES)("junit=a=b.xml"), ("junit", "a=b.xml"))
        for text in ("xml", "json=", "", "Table"):
            with self.assertRaises(argparse.ArgumentTypeError):
                FormWord(forms.NAMES)(text)
