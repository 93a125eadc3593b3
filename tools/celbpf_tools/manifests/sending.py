"""What an API server changes in the requests that it sends: values that are empty are absent, and a Namespace has the label
of its name.
"""

from typing import Any

# the keys of a request, of its user and of an object's metadata that are not sent with an empty text, list or map
REQUEST = ("subResource", "requestSubResource", "name", "namespace")
USER = ("username", "uid", "groups", "extra")
METADATA = ("name", "generateName", "namespace", "labels", "annotations", "finalizers", "ownerReferences")
EMPTY: tuple[Any, ...] = ("", [], {}, None)
# the label that each Namespace has, whatever its manifest says
NAME_LABEL = "kubernetes.io/metadata.name"


def without(value: Any, keys: tuple[Any, ...]) -> Any:
    """A map without the empty values of these keys; what is no map is unchanged."""
    if not isinstance(value, dict):
        return value
    return {key: one for key, one in value.items() if key not in keys or one not in EMPTY}


def changed(value: dict[str, Any], key: str, keys: tuple[Any, ...]) -> dict[str, Any]:
    """A map in which the map of a key has no empty values of these keys."""
    return {**value, key: without(value[key], keys)} if key in value else value


def with_name_label(value: Any) -> Any:
    """A Namespace with the label of its name; anything else is unchanged, as is a Namespace whose name is not known yet."""
    if not isinstance(value, dict) or (value.get("apiVersion"), value.get("kind")) != ("v1", "Namespace"):
        return value
    metadata = value.get("metadata")
    name, labels = (metadata.get("name"), metadata.get("labels") or {}) if isinstance(metadata, dict) else (None, {})
    if not isinstance(name, str) or not name or not isinstance(labels, dict):
        return value
    return {**value, "metadata": {**value["metadata"], "labels": {**labels, NAME_LABEL: name}}}


def object_sent(value: Any) -> Any:
    """An object as it is sent."""
    return changed(with_name_label(value), "metadata", METADATA) if isinstance(value, dict) else value


def request_sent(request: dict[str, Any]) -> dict[str, Any]:
    """A request as it is sent."""
    made = changed(without(request, REQUEST), "userInfo", USER)
    return {key: object_sent(value) if key in ("object", "oldObject") else value for key, value in made.items()}
