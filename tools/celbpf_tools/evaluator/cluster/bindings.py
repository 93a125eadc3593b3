"""Bindings and kinds of params that a cluster can store."""

from dataclasses import dataclass
from typing import Any, Optional

from . import labels, matching
from .fields import demand, field, only, text, texts
from .lists import name_of

BINDING_KEYS = ("policyName", "paramRef", "matchResources", "validationActions")
PARAM_KEYS = ("name", "namespace", "selector", "parameterNotFoundAction")
ACTIONS = {"Deny", "Warn", "Audit"}


@dataclass
class ParamRef:
    """Which objects are params: those of `name`, or if there is a selector those that it selects."""

    name: str
    namespace: str
    selector: Optional[labels.Selector]
    denies_absence: bool


@dataclass
class Binding:
    """A binding, whose actions are in its own order."""

    name: str
    policy: str
    actions: list[Any]
    resources: matching.MatchResources
    params: Optional[ParamRef] = None


def read_params(value: Any, refusal: str) -> Optional[ParamRef]:
    """Where a binding's params are, which may be absent."""
    if value is None:
        return None
    only(value, PARAM_KEYS, refusal)
    name, selector = text(value, "name", refusal, ""), field(value, "selector")
    action = text(value, "parameterNotFoundAction", refusal)
    demand((name != "") != (selector is not None) and action in ("Allow", "Deny"), refusal)
    wanted = None if selector is None else labels.read(selector, refusal)
    return ParamRef(name, text(value, "namespace", refusal, ""), wanted, action == "Deny")


def read_actions(spec: Any, refusal: str) -> list[Any]:
    """One to three actions, no two the same, and not Deny with Warn."""
    actions = texts(spec, "validationActions", refusal)
    demand(actions and len(set(actions)) == len(actions) and set(actions) <= ACTIONS, refusal)
    demand(not {"Deny", "Warn"} <= set(actions), refusal)
    return actions


def read(item: dict[str, Any]) -> Binding:
    """A binding, or C5 with its first invalid part."""
    refusal, spec = f"C5 {name_of(item)}: spec", field(item, "spec")
    only(spec, BINDING_KEYS, refusal)
    policy = text(spec, "policyName", f"{refusal}.policyName")
    demand(policy != "", f"{refusal}.policyName")
    return Binding(
        name_of(item),
        policy,
        read_actions(spec, f"{refusal}.validationActions"),
        matching.read(field(spec, "matchResources"), f"{refusal}.matchResources", False),
        read_params(field(spec, "paramRef"), f"{refusal}.paramRef"),
    )


def read_kind(spec: Any, refusal: str) -> Optional[tuple[Any, ...]]:
    """The kind of params that a policy names, which may be absent."""
    found = field(spec, "paramKind")
    if found is None:
        return None
    only(found, ("apiVersion", "kind"), refusal)
    kind = text(found, "apiVersion", refusal), text(found, "kind", refusal)
    demand(all(kind), refusal)
    return kind
