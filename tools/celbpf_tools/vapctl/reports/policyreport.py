"""PolicyReports of wgpolicyk8s.io: one for each namespace, and a ClusterPolicyReport for what has none, in a List."""

import json
from typing import Any, TextIO

from ..results import ALLOWED, AUDIT, DENY, ERROR, WARN, Report, Result

API_VERSION = "wgpolicyk8s.io/v1alpha2"
NAME = "vapctl"
OUTCOMES = ("pass", "fail", "warn", "error", "skip")
RESULTS = {DENY: "fail", WARN: "warn", AUDIT: "warn", ERROR: "error"}
# names the policy of an object that all policies allow, and of a finding that no policy makes
ALL = "validating-admission-policies"


def reference(result: Result) -> dict[str, Any]:
    """What names an object."""
    made = {"apiVersion": result.thing.api_version, "kind": result.thing.kind}
    if result.namespace:
        made["namespace"] = result.namespace
    if result.thing.name:
        made["name"] = result.thing.name
    return made


def entries(result: Result) -> list[dict[str, Any]]:
    """The entries of an object: one for each finding, or one that it passes."""
    base: dict[str, Any] = {"source": NAME, "scored": True, "resources": [reference(result)]}
    properties: dict[str, Any] = {"properties": {"file": result.place.file, "line": str(result.place.line)}}
    made = []
    for one in result.findings:
        entry: dict[str, Any] = {"policy": one.policy or ALL, "result": RESULTS[one.action], "message": one.message, **base, **properties}
        made.append({**entry, "rule": one.binding} if one.binding else entry)
    if not made and result.outcome == ALLOWED:
        made.append({"policy": ALL, "result": "pass", "message": "allowed", **base, **properties})
    return made


def report_of(namespace: str, found: list[dict[str, Any]]) -> dict[str, Any]:
    """The report of a namespace, or of what has none."""
    metadata = {"name": NAME, **({"namespace": namespace} if namespace else {})}
    summary = {outcome: sum(one["result"] == outcome for one in found) for outcome in OUTCOMES}
    kind = "PolicyReport" if namespace else "ClusterPolicyReport"
    return {"apiVersion": API_VERSION, "kind": kind, "metadata": metadata, "summary": summary, "results": found}


def document_of(report: Report) -> dict[str, Any]:
    """The reports, in a List that `kubectl apply` takes."""
    found: dict[str, list[dict[str, Any]]] = {}
    for result in report.results:
        found.setdefault(result.namespace, []).extend(entries(result))
    items = [report_of(namespace, found[namespace]) for namespace in sorted(found)]
    return {"apiVersion": "v1", "kind": "List", "items": items}


def write(report: Report, out: TextIO) -> None:
    """Writes the reports as JSON, in ASCII."""
    json.dump(document_of(report), out, indent=2)
    print(file=out)
