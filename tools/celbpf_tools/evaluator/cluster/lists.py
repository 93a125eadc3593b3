"""The items of lists as `kubectl get -o json` prints them."""

from typing import Any

from .. import documents
from .fields import demand, field, text_map

GROUP = "admissionregistration.k8s.io"
POLICY, BINDING = "ValidatingAdmissionPolicy", "ValidatingAdmissionPolicyBinding"
POLICIES, BINDINGS = (f"{GROUP}/v1", POLICY), (f"{GROUP}/v1", BINDING)
NAMESPACES = ("v1", "Namespace")
DEFINITIONS = ("apiextensions.k8s.io/v1", "CustomResourceDefinition")


def group_version(api_version: str) -> tuple[Any, ...]:
    group, slash, version = api_version.partition("/")
    return (group, version) if slash else ("", api_version)


def items_of(whole: Any, refusal: str) -> list[Any]:
    """The items of one list."""
    items = field(whole, "items")
    demand(field(whole, "apiVersion") == "v1" and field(whole, "kind") == "List" and isinstance(items, list), refusal)
    return items


def kind_of(item: dict[str, Any]) -> tuple[Any, ...]:
    return item["apiVersion"], item["kind"]


def name_of(item: dict[str, Any]) -> str:
    return item["metadata"]["name"]


def namespace_of(item: dict[str, Any]) -> str:
    return item["metadata"].get("namespace") or ""


def check(item: Any, refusal: str) -> None:
    """The form that every item has."""
    name = field(item, "metadata", "name")
    demand(isinstance(name, str) and name != "", refusal)
    for key in ("apiVersion", "kind"):
        demand(isinstance(field(item, key), str), refusal)
    namespace = field(item, "metadata", "namespace")
    demand(namespace is None or isinstance(namespace, str), refusal)
    text_map(field(item, "metadata", "labels"), refusal)
    if item["kind"] in (POLICY, BINDING) and group_version(item["apiVersion"])[0] == GROUP:
        demand(item["apiVersion"] == f"{GROUP}/v1", refusal)


def read(lists: list[Any]) -> list[Any]:
    """The items of all lists, or the first of C1 to C3: with the place of a list or an item, or the name of an item."""
    wholes = [documents.read(text, f"C1 {place}") for place, text in enumerate(lists)]
    items = [item for place, whole in enumerate(wholes) for item in items_of(whole, f"C1 {place}")]
    for place, item in enumerate(items):
        check(item, f"C2 {place}")
    keys = set()
    for item in items:
        key = kind_of(item), namespace_of(item), name_of(item)
        demand(key not in keys, f"C3 {name_of(item)}")
        keys.add(key)
    return items
