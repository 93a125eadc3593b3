"""What a cluster holds, from lists as `kubectl get -o json` prints them."""

from dataclasses import dataclass
from dataclasses import field as member
from typing import Any, Optional

from .. import policies
from ..refused import Refused
from ..trees import Name, parts
from . import bindings, lists, matching
from .fields import demand, field, in_name_order
from .lists import BINDINGS, DEFINITIONS, NAMESPACES, POLICIES, group_version, kind_of, name_of, namespace_of

NAMESPACED, CLUSTER = "Namespaced", "Cluster"
# the fields of a policy that count as absent if they are null
SPEC_KEYS = {"auditAnnotations", "failurePolicy", "matchConditions", "matchConstraints", "paramKind", "validations", "variables"}
VALIDATION_KEYS = {"expression", "message", "messageExpression", "reason"}


@dataclass
class Policy:
    """A bound policy; `cause` is why it is blocked, as `C7 K3`, or None."""

    name: str
    ignores: bool
    constraints: matching.MatchResources
    kind: Optional[tuple[Any, ...]]
    document: dict[str, Any]
    bindings: list[Any]
    compiled: Any = None
    cause: Optional[str] = None

    @property
    def blocked(self) -> Optional[str]:
        """The code by which requests are refused that it matches."""
        return self.cause and self.cause.split()[0]


@dataclass
class State:
    """All items, the namespaces by name, and the bound policies by name."""

    items: list[Any]
    namespaces: dict[str, Any]
    definitions: list[Any]
    policies: list[Any] = member(default_factory=list)

    def of_kind(self, kind: Optional[tuple[Any, ...]]) -> list[Any]:
        """The objects of a kind, in all namespaces."""
        return [item for item in self.items if kind_of(item) == kind]

    def scope(self, kind: tuple[Any, ...]) -> Optional[str]:
        """Whether objects of a kind have namespaces, or None if that is not known."""
        for definition in self.definitions:
            if serves(definition, kind):
                found = field(definition, "spec", "scope")
                return found if found in (NAMESPACED, CLUSTER) else None
        found = self.of_kind(kind)
        if not found:
            return None
        return NAMESPACED if any(map(namespace_of, found)) else CLUSTER

    def knows(self, kind: tuple[Any, ...]) -> bool:
        """Whether params of a kind can be found."""
        group, _ = group_version(kind[0])
        others = [
            item
            for item in self.items
            if item["kind"] == kind[1] and item["apiVersion"] != kind[0] and group_version(item["apiVersion"])[0] == group
        ]
        return self.scope(kind) is not None and not others


def serves(definition: dict[str, Any], kind: tuple[Any, ...]) -> bool:
    """Whether a CustomResourceDefinition serves a kind."""
    spec = field(definition, "spec")
    group, version = group_version(kind[0])
    versions = field(spec, "versions")
    return (
        field(spec, "group") == group
        and field(spec, "names", "kind") == kind[1]
        and isinstance(versions, list)
        and any(field(one, "name") == version and field(one, "served") is True for one in versions)
    )


def cluster_scoped(items: list[Any], kind: tuple[Any, ...]) -> list[Any]:
    """The objects of a kind that have no namespace, in the order of their names."""
    found = [item for item in items if kind_of(item) == kind and namespace_of(item) == ""]
    return sorted(found, key=lambda item: in_name_order(name_of(item)))


def without_nulls(value: Any, keys: set[Any]) -> Any:
    """An object without those of these fields that are null; another value as it is."""
    if not isinstance(value, dict):
        return value
    return {key: part for key, part in value.items() if part is not None or key not in keys}


def compiled_document(item: dict[str, Any]) -> dict[str, Any]:
    """The document of a policy as it is compiled, without its status."""
    document = {key: value for key, value in item.items() if key != "status"}
    spec = without_nulls(document.get("spec"), SPEC_KEYS)
    if isinstance(spec, dict) and isinstance(spec.get("validations"), list):
        spec["validations"] = [without_nulls(each, VALIDATION_KEYS) for each in spec["validations"]]
    return {**document, "spec": spec} if "spec" in document else document


def read_policy(item: dict[str, Any], own: list[Any]) -> Policy:
    """A policy with these bindings, or C6."""
    name, spec = name_of(item), field(item, "spec")
    constraints = matching.read(field(spec, "matchConstraints"), f"C6 {name}", True)
    kind = bindings.read_kind(spec, f"C6 {name}")
    document = compiled_document(item)
    return Policy(name, field(spec, "failurePolicy") == "Ignore", constraints, kind, document, own)


def read(documents: list[Any]) -> State:
    """The state of these lists, with no policy compiled; or the first of C1 to C6."""
    items = lists.read(documents)
    namespaces = {name_of(item): item for item in cluster_scoped(items, NAMESPACES)}
    demand(namespaces, "C4")
    state = State(items, namespaces, cluster_scoped(items, DEFINITIONS))
    bound = [bindings.read(item) for item in cluster_scoped(items, BINDINGS)]
    for item in cluster_scoped(items, POLICIES):
        own = [one for one in bound if one.policy == name_of(item)]
        if own:
            state.policies.append(read_policy(item, own))
    return state


def names_namespace(tree: Any) -> bool:
    """Whether an expression names the root `namespaceObject`."""
    return tree == Name("namespaceObject") or any(map(names_namespace, parts(tree)))


def compile_policy(policy: Policy, state: State) -> Optional[str]:
    """Compiles a bound policy; why it is blocked, if it is."""
    try:
        policy.compiled = policies.compile_policy(policies.of_value(policy.document))
    except Refused as why:
        return f"C7 {why.text}"
    if any(map(names_namespace, policy.compiled.conditions)):
        return "C7 namespaceObject"
    return None if policy.kind is None or state.knows(policy.kind) else "C8"


def opened(documents: list[Any], partial: bool = False) -> State:
    """The state with its policies compiled; with `partial` those that are refused stay, and are blocked."""
    state = read(documents)
    for policy in state.policies:
        policy.cause = compile_policy(policy, state)
        if policy.cause and not partial:
            code, *rest = policy.cause.split(" ", 1)
            raise Refused(" ".join([code, policy.name, *rest]))
    return state
