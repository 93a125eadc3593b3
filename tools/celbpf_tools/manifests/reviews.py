"""The review that an API server would send of an object."""

from typing import Any, Optional

from .kinds import Resource
from .sending import object_sent
from .users import user_info

REVIEW = {"apiVersion": "admission.k8s.io/v1", "kind": "AdmissionReview"}


class Converted(Exception):
    """The old object is of another version, so that an API server would convert it."""


def placed(thing: dict[str, Any], resource: Resource, namespace: str) -> dict[str, Any]:
    """An object in its namespace, by default this one; without one if its kind has none."""
    metadata = {key: value for key, value in thing["metadata"].items() if key != "namespace"}
    if resource.namespaced:
        metadata["namespace"] = thing["metadata"].get("namespace") or namespace
    return object_sent({**thing, "metadata": metadata})


def name_of(thing: dict[str, Any]) -> str:
    """The name of an object, empty if it is yet to be generated."""
    return thing["metadata"].get("name") or ""


def namespace_of(thing: dict[str, Any], resource: Resource) -> str:
    """The namespace of a request, which for a Namespace is its own name."""
    if (resource.group, resource.plural) == ("", "namespaces"):
        return name_of(thing)
    return thing["metadata"].get("namespace") or ""


class OldObjects:
    """What was there before, by group, kind, namespace and name."""

    def __init__(self) -> None:
        self.found: dict[tuple[str, ...], dict[str, Any]] = {}

    def key(self, thing: dict[str, Any], resource: Resource) -> tuple[str, ...]:
        return resource.group, resource.kind, namespace_of(thing, resource), name_of(thing)

    def add(self, thing: dict[str, Any], resource: Resource) -> None:
        self.found[self.key(thing, resource)] = thing

    def of(self, thing: dict[str, Any], resource: Resource) -> Optional[dict[str, Any]]:
        """The old object of an object, if there is one."""
        old = self.found.get(self.key(thing, resource)) if name_of(thing) else None
        if old is not None and old["apiVersion"] != thing["apiVersion"]:
            raise Converted(f"{thing['kind']} {name_of(thing)} was {old['apiVersion']} and is {thing['apiVersion']}")
        return old


def request_of(thing: dict[str, Any], resource: Resource, old: Optional[dict[str, Any]], uid: str) -> dict[str, Any]:
    """The request that creates an object, or that updates an old one."""
    operation = "CREATE" if old is None else "UPDATE"
    kind = {"group": resource.group, "version": resource.version, "kind": resource.kind}
    plural = {"group": resource.group, "version": resource.version, "resource": resource.plural}
    names = {"name": name_of(thing), "namespace": namespace_of(thing, resource)}
    made: dict[str, Any] = {"uid": uid, "kind": kind, "resource": plural, "requestKind": kind, "requestResource": plural}
    made.update({key: value for key, value in names.items() if value})
    options = {"apiVersion": "meta.k8s.io/v1", "kind": f"{operation.capitalize()}Options"}
    made.update(operation=operation, object=thing, oldObject=old, dryRun=False, options=options)
    return made


def review_of(request: dict[str, Any], user: Optional[str], groups: list[Any]) -> dict[str, Any]:
    """A review of a request, by a user of groups if one is given."""
    if user is not None:
        request = {**request, "userInfo": user_info(user, groups)}
    return {**REVIEW, "request": request}
