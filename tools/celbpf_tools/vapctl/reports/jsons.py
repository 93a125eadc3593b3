"""A report as JSON."""

import json
from typing import Any, TextIO

from ..counts import by_kind, by_namespace, by_policy
from ..results import ALLOWED, AUDIT, DENIED, ERROR, UNDECIDED, WARN, Report, Result

# how keys of a finding are called that have another name in JSON
KEYS = {"is_audited": "audited"}


def object_of(result: Result) -> dict[str, Any]:
    """What names an object."""
    named = {"apiVersion": result.thing.api_version, "kind": result.thing.kind}
    more = {"namespace": result.namespace, "name": result.thing.name}
    return {**named, **{key: value for key, value in more.items() if value}}


def result_of(result: Result) -> dict[str, Any]:
    """A result. `message` is the one that the cluster sends with a denial."""
    findings = [{KEYS.get(key, key): value for key, value in vars(one).items() if value} for one in result.findings]
    place: dict[str, Any] = {"file": result.place.file, "line": result.place.line}
    made = {**place, "object": object_of(result), "outcome": result.outcome, "findings": findings}
    return {**made, "message": result.message} if result.message else made


def summary_of(report: Report) -> dict[str, Any]:
    """The numbers of a report."""
    counts = {outcome: report.count(outcome) for outcome in (ALLOWED, DENIED, UNDECIDED)}
    more = {"leftOut": report.left_out, "warnings": len(report.findings(WARN)), "audited": len(report.findings(AUDIT))}
    return {"objects": len(report.results), **counts, **more, "errors": len(report.findings(ERROR)) + len(report.troubles)}


def document_of(report: Report) -> dict[str, Any]:
    """A whole report."""
    troubles = [{"file": one.place.file, "line": one.place.line, "message": one.why} for one in report.troubles]
    return {
        "summary": summary_of(report), "byPolicy": by_policy(report), "byNamespace": by_namespace(report),
        "byKind": by_kind(report), "policies": report.policies, "results": list(map(result_of, report.results)),
        "notRead": troubles, "status": report.status,
    }


def write(report: Report, out: TextIO) -> None:
    """Writes a report as JSON, in ASCII."""
    json.dump(document_of(report), out, indent=2)
    print(file=out)
