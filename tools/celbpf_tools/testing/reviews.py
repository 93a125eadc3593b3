"""The review of a case."""

import json
from pathlib import Path
from typing import Any

from ..documents import Unreadable, one_in, text_of
from ..manifests.kinds import Resources
from ..manifests.reviews import namespace_of
from ..manifests.sending import request_sent
from ..vapctl.numbers import NotJson, sent
from ..vapctl.quantities import write_quantities

REVIEW = {"apiVersion": "admission.k8s.io/v1", "kind": "AdmissionReview"}


def kind_of(thing: dict[str, Any]) -> dict[str, Any]:
    """The group, the version and the kind of an object, as a request has them."""
    group, _, version = str(thing.get("apiVersion", "")).rpartition("/")
    return {"group": group, "version": version, "kind": thing.get("kind", "")}


def operation_of(parts: dict[str, Any]) -> str:
    """The operation that objects speak of, if none is given."""
    if parts.get("object") is None:
        return "DELETE"
    return "CREATE" if parts.get("oldObject") is None else "UPDATE"


def stored(value: Any, folder: Path) -> Any:
    """An object, which may be a file, with the numbers and quantities that an API server stores, as `check` has them."""
    if isinstance(value, str):
        value = one_in(folder / value)
    try:
        value = sent(value)
    except NotJson as why:
        raise Unreadable(str(why)) from why
    if isinstance(value, dict) and all(isinstance(value.get(key), str) for key in ("apiVersion", "kind")):
        write_quantities(value)
    return value


def named(thing: dict[str, Any]) -> dict[str, Any]:
    """What a request says of an object: its kind, its name and namespace, and if the kind is built in its resource."""
    found: dict[str, Any] = {"kind": kind_of(thing)}
    metadata = thing.get("metadata")
    if isinstance(metadata, dict):
        found.update({key: metadata[key] for key in ("name", "namespace") if key in metadata})
    has_kind = all(isinstance(thing.get(key), str) for key in ("apiVersion", "kind"))
    resource = Resources().of(thing) if has_kind else None
    if resource:
        found["resource"] = {"group": resource.group, "version": resource.version, "resource": resource.plural}
        if isinstance(metadata, dict) and namespace_of(thing, resource):
            found["namespace"] = namespace_of(thing, resource)
    return found


def review_of_parts(parts: dict[str, Any], uid: str, folder: Path) -> dict[str, Any]:
    """A review of an object or an old one, which may be files, as an API server sends it; `request` adds more keys."""
    parts = {key: stored(value, folder) if key in ("object", "oldObject") else value for key, value in parts.items()}
    thing = parts.get("object") if isinstance(parts.get("object"), dict) else parts.get("oldObject")
    request: dict[str, Any] = {"uid": uid, "operation": parts.get("operation") or operation_of(parts)}
    if isinstance(thing, dict):
        request.update(named(thing))
    request.update({key: parts[key] for key in ("object", "oldObject") if key in parts})
    return {**REVIEW, "request": request_sent({**request, **parts.get("request", {})})}


def text_of_review(review: Any, uid: str, folder: Path) -> str:
    """The text of a case's review: that of its file, byte for byte, or a compact one."""
    if isinstance(review, str):
        path = folder / review
        return compact(one_in(path)) if path.suffix in (".yaml", ".yml") else text_of(path)
    document = review if "kind" in review and "request" in review else review_of_parts(review, uid, folder)
    return compact(document)


def compact(value: Any) -> str:
    """A value as JSON on one line. A half of a pair of surrogates, which UTF-8 does not have, is an escape."""
    text = json.dumps(value, ensure_ascii=False, separators=(",", ":"))
    try:
        text.encode()
    except UnicodeEncodeError:
        return json.dumps(value, separators=(",", ":"))
    return text
