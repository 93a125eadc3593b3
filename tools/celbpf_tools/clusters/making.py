"""Policies, bindings, objects and requests of a cluster, as documents."""

import json
from typing import Any, Iterable, Optional

GROUP = "admissionregistration.k8s.io"
REVIEW = {"apiVersion": "admission.k8s.io/v1", "kind": "AdmissionReview"}
ANY = ("*",)


def rule(
    resources: Iterable[str] = ANY, groups: Iterable[str] = ANY, versions: Iterable[str] = ANY, operations: Iterable[str] = ANY, **more: Any
) -> dict[str, Any]:
    lists = {"resources": resources, "apiGroups": groups, "apiVersions": versions, "operations": operations}
    return {**{key: list(value) for key, value in lists.items()}, **more}


def policy(name: str = "p", rules: Optional[list[Any]] = None, constraints: Optional[dict[str, Any]] = None, **spec: Any) -> dict[str, Any]:
    """A policy as kubectl prints it; without rules it is for all resources, without validations it admits."""
    whole: dict[str, Any] = {
        "failurePolicy": "Fail",
        "matchConstraints": {"resourceRules": [rule()] if rules is None else rules, **(constraints or {})},
        "validations": [{"expression": "true"}],
        **spec,
    }
    made = thing("ValidatingAdmissionPolicy", name, f"{GROUP}/v1")
    return {**made, "spec": whole, "status": {"observedGeneration": 1}}


def binding(name: str = "b", policy_name: str = "p", actions: Iterable[Any] = ("Deny",), **more: Any) -> dict[str, Any]:
    made = thing("ValidatingAdmissionPolicyBinding", name, f"{GROUP}/v1")
    return {**made, "spec": {"policyName": policy_name, "validationActions": list(actions), **more}}


def thing(kind: str, name: str, version: str = "v1", **metadata: Any) -> dict[str, Any]:
    """An object of a kind."""
    return {"apiVersion": version, "kind": kind, "metadata": {"name": name, **metadata}}


def definition(group: str, kind: str, plural: str, scope: str = "Namespaced", versions: Iterable[Any] = ("v1",)) -> dict[str, Any]:
    """A CustomResourceDefinition that serves these versions."""
    made = thing("CustomResourceDefinition", f"{plural}.{group}", "apiextensions.k8s.io/v1")
    served = [{"name": name, "served": True} for name in versions]
    return {**made, "spec": {"group": group, "names": {"kind": kind, "plural": plural}, "scope": scope, "versions": served}}


def request(kind: str, resource: tuple[Any, ...], operation: str = "CREATE", **more: Any) -> dict[str, Any]:
    """A request for `web`, which has an object of this name if the operation writes."""
    group, version, plural = resource
    given = {
        "uid": "u1",
        "kind": {"group": group, "version": version, "kind": kind},
        "resource": {"group": group, "version": version, "resource": plural},
        "operation": operation,
        "name": "web",
        **more,
    }
    if operation in ("CREATE", "UPDATE") and "object" not in given:
        given["object"] = {"metadata": {"name": given["name"]}}
    return given


def list_text(items: list[Any]) -> bytes:
    """A List of items."""
    return json.dumps({"apiVersion": "v1", "kind": "List", "items": items}, ensure_ascii=False).encode()


def review_text(given: dict[str, Any]) -> bytes:
    """A review of a request, on one line."""
    return json.dumps({**REVIEW, "request": given}, ensure_ascii=False).encode()
