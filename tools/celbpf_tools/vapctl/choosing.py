"""The params that bindings can choose: by a name, or by a selector, in a namespace or in that of the request."""

from typing import Any

from .cluster import BINDING, POLICY, is_any, is_of, policy_of, spec_of
from .inputs import Thing
from .matching import labels_of


def has_label(requirement: dict[str, Any], labels: dict[str, Any]) -> bool:
    """Whether labels meet a requirement of a selector; one of another form is taken for met."""
    key, operator, values = str(requirement.get("key")), requirement.get("operator"), requirement.get("values")
    is_in = key in labels and isinstance(values, list) and labels[key] in values
    return {"In": is_in, "NotIn": not is_in, "Exists": key in labels, "DoesNotExist": key not in labels}.get(str(operator), True)


def selects(selector: Any, thing: Thing) -> bool:
    """Whether a selector of params selects an object."""
    labels = labels_of(thing.value)
    own, required = (selector.get(key) if isinstance(selector, dict) else None for key in ("matchLabels", "matchExpressions"))
    if isinstance(own, dict) and any(labels.get(key) != value for key, value in own.items()):
        return False
    return all(has_label(one, labels) for one in required if isinstance(one, dict)) if isinstance(required, list) else True


def may_choose(reference: dict[str, Any], thing: Thing) -> bool:
    """Whether a binding with this reference may choose an object, in some request."""
    namespace = reference.get("namespace")
    if namespace and thing.namespace not in ("", namespace):
        return False
    return thing.name == str(reference["name"]) if reference.get("name") else selects(reference.get("selector"), thing)


def chosen(things: list[Thing]) -> list[Thing]:
    """The params among the objects of a state that its bindings can choose. If they can choose none of a kind that there is,
    one stays with its name and labels alone, so that the kind is known.
    """
    kinds = {one.name: spec_of(one).get("paramKind") for one in things if is_of(one, POLICY)}
    bound = [(kinds.get(policy_of(one)), spec_of(one).get("paramRef")) for one in things if is_of(one, BINDING)]
    named = [kind for kind, _ in bound]
    found: dict[int, Thing] = {}
    for kind in dict.fromkeys((one.api_version, one.kind) for one in things if is_any(one, named)):
        own = [one for one in things if (one.api_version, one.kind) == kind]
        references = [reference for of, reference in bound if isinstance(reference, dict) and is_any(own[0], [of])]
        kept = [one for one in own if any(may_choose(reference, one) for reference in references)]
        found |= {id(one): one for one in kept}
        if not kept:
            found[id(own[0])] = bare(own[0])
    return [found[id(one)] for one in things if id(one) in found]


def bare(thing: Thing) -> Thing:
    """An object with what it is found by alone."""
    metadata = {key: value for key, value in thing.metadata.items() if key in ("name", "namespace", "labels")}
    return Thing({"apiVersion": thing.api_version, "kind": thing.kind, "metadata": metadata}, thing.place)
