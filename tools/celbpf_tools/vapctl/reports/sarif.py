"""SARIF 2.1.0 (OASIS): a rule for each policy, a result for each finding."""

import json
from typing import Any, TextIO
from urllib.parse import quote

from ..inputs import Place, Trouble
from ..results import AUDIT, DENY, ERROR, WARN, Finding, Report, Result
from ..version import version
from .texts import is_file

SCHEMA = "https://docs.oasis-open.org/sarif/sarif/v2.1.0/errata01/os/schemas/sarif-schema-2.1.0.json"
LEVELS = {DENY: "error", WARN: "warning", AUDIT: "note", ERROR: "error"}
# the rule of findings that no policy makes
NO_POLICY = "not-decided"


def location(place: Place, title: str = "", kind: str = "") -> dict[str, Any]:
    """Where an object is; one on standard input has no file."""
    made: dict[str, Any] = {}
    if is_file(place.file):
        physical: dict[str, Any] = {"artifactLocation": {"uri": quote(place.file)}}
        if place.line:
            physical["region"] = {"startLine": place.line}
        made["physicalLocation"] = physical
    if title:
        made["logicalLocations"] = [{"name": title, "kind": kind or "resource"}]
    return made


def rule_of(finding: Finding) -> str:
    return finding.policy or NO_POLICY


def result_of(result: Result, finding: Finding, rules: list[str]) -> dict[str, Any]:
    """The result of a finding."""
    rule = rule_of(finding)
    return {
        "ruleId": rule, "ruleIndex": rules.index(rule), "level": LEVELS[finding.action],
        "message": {"text": f"{result.title}: {finding.message}"},
        "locations": [location(result.place, result.title)],
    }


def notification_of(trouble: Trouble) -> dict[str, Any]:
    """An input that was not read."""
    return {"level": "error", "message": {"text": str(trouble)}, "locations": [location(trouble.place)]}


def document_of(report: Report) -> dict[str, Any]:
    """A log with one run."""
    found = [(result, one) for result in report.results for one in result.findings]
    rules = list(dict.fromkeys([*report.policies, *(rule_of(one) for _, one in found)]))
    driver = {
        "name": "vapctl", "version": version(),
        "rules": [{"id": rule, "shortDescription": {"text": description(rule)}} for rule in rules],
    }
    invocation = {
        "executionSuccessful": not report.troubles,
        "toolExecutionNotifications": [notification_of(one) for one in report.troubles],
    }
    results = [result_of(result, one, rules) for result, one in found]
    run = {"tool": {"driver": driver}, "invocations": [invocation], "results": results, "columnKind": "unicodeCodePoints"}
    return {"$schema": SCHEMA, "version": "2.1.0", "runs": [run]}


def description(rule: str) -> str:
    """What a rule is."""
    return "The object is not decided" if rule == NO_POLICY else f"ValidatingAdmissionPolicy {rule}"


def write(report: Report, out: TextIO) -> None:
    """Writes a report as SARIF, in ASCII."""
    json.dump(document_of(report), out, indent=2)
    print(file=out)
