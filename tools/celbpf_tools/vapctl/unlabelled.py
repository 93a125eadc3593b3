"""Which policies and bindings select namespaces by labels that a namespace made here does not have."""

from collections.abc import Iterator
from typing import Any

from ..manifests.kinds import Resource
from ..manifests.sending import NAME_LABEL
from .cluster import BINDING, State, is_of, policy_of, spec_of
from .inputs import Thing
from .results import listed


def constraints_of(thing: Thing) -> dict[str, Any]:
    """The constraints of a policy or a binding."""
    found = spec_of(thing).get("matchResources" if is_of(thing, BINDING) else "matchConstraints")
    return found if isinstance(found, dict) else {}


def asks_labels(thing: Thing) -> bool:
    """Whether a policy or a binding selects namespaces by another label than that of the name."""
    selector = constraints_of(thing).get("namespaceSelector")
    own, required = (selector.get(key) if isinstance(selector, dict) else None for key in ("matchLabels", "matchExpressions"))
    keys = [*own] if isinstance(own, dict) else []
    keys += [one.get("key") for one in required if isinstance(one, dict)] if isinstance(required, list) else []
    return any(key != NAME_LABEL for key in keys)


def names(thing: Thing, resource: Resource) -> bool:
    """Whether the rules of a policy or a binding, if it has some, name a resource."""
    rules = constraints_of(thing).get("resourceRules") or [{"apiGroups": "*", "resources": "*"}]
    return any({resource.group, "*"} & {*rule["apiGroups"]} and {resource.plural, "*", "*/*"} & {*rule["resources"]} for rule in rules)


def told(state: State, asked: set[tuple[Resource, str]]) -> Iterator[str]:
    """A line for each; `asked` has the resources of which there are requests in the namespaces that are made here."""
    policies = {one.name: one for one in state.policies}
    for thing in (*state.policies, *state.bindings):
        policy = policies.get(policy_of(thing)) if is_of(thing, BINDING) else thing
        if policy is None or not asks_labels(thing):
            continue
        found = sorted({namespace for resource, namespace in asked if names(policy, resource) and names(thing, resource)})
        has, give = ("has", "its Namespace") if len(found) == 1 else ("have", "their Namespaces")
        if found:
            what = "policy" if thing is policy else "binding"
            yield f"{what} {thing.name} selects namespaces by labels, and {listed(found)} {has} none here: give {give}"
