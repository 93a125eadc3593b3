"""The state of a cluster, as the gatekeeper reads it: one that was saved, or one of given policies."""

import json
import re
from collections.abc import Iterable
from dataclasses import dataclass, field
from pathlib import Path
from typing import Any, Optional

from ..manifests.sending import with_name_label
from ..manifests.spelling import near_in
from .inputs import Place, Thing

ADMISSION = "admissionregistration.k8s.io"
POLICY, BINDING = "ValidatingAdmissionPolicy", "ValidatingAdmissionPolicyBinding"
VERSION = f"{ADMISSION}/v1"
# an API server converts these to it
OLDER = (f"{ADMISSION}/v1beta1", f"{ADMISSION}/v1alpha1")
NAME = re.compile(r"[a-z0-9](?:[-a-z0-9.]{0,251}[a-z0-9])?")
EVERYTHING = {"apiGroups": ["*"], "apiVersions": ["*"], "operations": ["*"], "resources": ["*"]}


class NoState(Exception):
    """Objects that are no state of a cluster, with the lines that say why."""

    def __init__(self, lines: list[str]):
        super().__init__("; ".join(lines))
        self.lines = lines


@dataclass
class State:
    """The objects of a cluster. `made` has the policies whose bindings are made here, since none was given; `is_given` tells
    whether the policies are given ones.
    """

    things: list[Thing] = field(default_factory=list)
    made: set[str] = field(default_factory=set)
    is_given: bool = False

    def of(self, kind: str) -> list[Thing]:
        """The policies or the bindings."""
        return [thing for thing in self.things if is_of(thing, kind)]

    @property
    def policies(self) -> list[Thing]:
        return self.of(POLICY)

    @property
    def bindings(self) -> list[Thing]:
        return self.of(BINDING)

    def namespaces(self) -> set[str]:
        """The names of the namespaces."""
        return {thing.name for thing in self.things if is_namespace(thing)}

    def add(self, things: Iterable[Thing]) -> None:
        """Adds objects that are not there yet."""
        known = {key_of(thing) for thing in self.things}
        self.things += [thing for thing in things if key_of(thing) not in known]

    def actions(self) -> dict[tuple[str, str], list[str]]:
        """By policy and binding the actions of the binding."""
        return {(policy_of(one), one.name): list(spec_of(one).get("validationActions") or ()) for one in self.bindings}

    def written(self, path: Path, actions: Optional[list[str]] = None, only: Optional[Thing] = None) -> Path:
        """Writes the state as a List. `actions` are those of all bindings, `only` is the one binding that is kept."""
        kept = [thing for thing in self.things if only is None or thing is only or not is_of(thing, BINDING)]
        items = [with_actions(thing, actions) for thing in kept]
        text = json.dumps({"apiVersion": "v1", "kind": "List", "items": items}, separators=(",", ":"))
        path.write_text(text, encoding="utf-8")
        return path


def is_of(thing: Thing, kind: str) -> bool:
    """Whether an object is a policy, or a binding."""
    return thing.group == ADMISSION and thing.kind == kind


def with_actions(thing: Thing, actions: Optional[list[str]]) -> dict[str, Any]:
    """An object; a binding with these actions if they are given."""
    if actions is None or not is_of(thing, BINDING):
        return thing.value
    return {**thing.value, "spec": {**spec_of(thing), "validationActions": actions}}


def spec_of(thing: Thing) -> dict[str, Any]:
    """The specification of an object, empty if it has none."""
    spec = thing.value.get("spec")
    return spec if isinstance(spec, dict) else {}


def policy_of(binding: Thing) -> str:
    return str(spec_of(binding).get("policyName", ""))


def key_of(thing: Thing) -> tuple[str, ...]:
    """What an object is found by."""
    return thing.group, thing.kind, thing.namespace, thing.name


def is_namespace(thing: Thing) -> bool:
    return (thing.group, thing.kind) == ("", "Namespace")


def namespace_named(name: str, place: Place) -> Thing:
    """A Namespace without labels but that of its name."""
    return Thing(with_name_label({"apiVersion": "v1", "kind": "Namespace", "metadata": {"name": name}}), place)


def as_stored(thing: Thing) -> Thing:
    """A policy or a binding of an older version as one of v1, as an API server stores it; others are unchanged."""
    if (is_of(thing, POLICY) or is_of(thing, BINDING)) and thing.api_version in OLDER:
        return Thing({**thing.value, "apiVersion": VERSION}, thing.place)
    return thing


def duplicates(things: list[Thing]) -> list[str]:
    """A line for each object that is there twice."""
    first: dict[tuple[str, ...], Thing] = {}
    told = []
    for thing in things:
        before = first.setdefault(key_of(thing), thing)
        if before is not thing:
            told.append(f"{thing.place}: {thing.title} is also at {before.place}")
    return told


def of_other_versions(things: list[Thing]) -> list[str]:
    """A line for each policy or binding whose `apiVersion` is that of something else, or of none."""
    return [f"{thing.place}: {thing.title}: its apiVersion is {thing.api_version}, and not {VERSION}"
            for thing in things if thing.kind in (POLICY, BINDING) and thing.api_version != VERSION]


def misnamed(things: list[Thing]) -> list[str]:
    """A line for each policy or binding whose name is none that an API server stores."""
    return [f"{thing.place}: {thing.title}: its name is no DNS subdomain" for thing in things
            if (is_of(thing, POLICY) or is_of(thing, BINDING)) and not NAME.fullmatch(thing.name)]


def misspelt(thing: Thing) -> Optional[str]:
    """The kind of policies, bindings and the like that is meant by one that there is not."""
    return near_in(ADMISSION, thing.kind) if thing.group == ADMISSION else None


def misspelt_kinds(things: list[Thing]) -> list[str]:
    """A line for each object that would be a policy or the like, if its kind were spelt so."""
    return [f"{thing.place}: {thing.title}: {ADMISSION} has no such kind: did you mean {meant}?"
            for thing in things if (meant := misspelt(thing))]


def saved(things: list[Thing]) -> State:
    """The state of objects that a cluster holds."""
    stored = [as_stored(thing) for thing in things]
    if told := misspelt_kinds(stored) + of_other_versions(stored) + misnamed(stored) + duplicates(stored):
        raise NoState(told)
    return State(stored)


def of_policies(things: list[Thing], params: list[Thing]) -> State:
    """The state in which these policies are bound: by the bindings among them, or else by one that denies. If there are params,
    nothing else among the things is one.
    """
    kinds = [spec_of(one).get("paramKind") for one in (*things, *params) if is_of(one, POLICY)]
    state = saved([*(one for one in things if not params or is_namespace(one) or not is_any(one, kinds)), *params])
    bound, state.is_given = {policy_of(binding) for binding in state.bindings}, True
    for policy in state.policies:
        if policy.name not in bound:
            state.made.add(policy.name)
            state.things.append(binding_of(policy, free_name(policy.name, state.bindings), params_of(policy, state.things)))
    state.things = [with_rules(thing) for thing in state.things]
    return state


def with_rules(thing: Thing) -> Thing:
    """A policy without constraints is asked about every object."""
    spec = thing.value.get("spec")
    if not is_of(thing, POLICY) or not isinstance(spec, dict) or spec.get("matchConstraints"):
        return thing
    return Thing({**thing.value, "spec": {**spec, "matchConstraints": {"resourceRules": [EVERYTHING]}}}, thing.place)


def params_of(policy: Thing, things: list[Thing]) -> Optional[list[Thing]]:
    """The objects of the kind of a policy's params; `None` if it has none."""
    kind = spec_of(policy).get("paramKind")
    return [one for one in things if is_any(one, [kind])] if isinstance(kind, dict) else None


def is_any(thing: Thing, kinds: list[Any]) -> bool:
    """Whether an object is of one of these kinds of params."""
    return any(isinstance(kind, dict) and (thing.api_version, thing.kind) == (kind.get("apiVersion"), kind.get("kind")) for kind in kinds)


def free_name(name: str, things: list[Thing]) -> str:
    """A name that none of these has, which is this one if it is free."""
    names = {one.name for one in things}
    return next(one for one in (name, *(f"{name}.{number}" for number in range(len(names) + 1))) if one not in names)


def binding_of(policy: Thing, name: str, params: Optional[list[Thing]]) -> Thing:
    """A binding of this name by which a policy denies, with the params that are given."""
    spec: dict[str, Any] = {"policyName": policy.name, "validationActions": ["Deny"]}
    if params is not None:
        spec["paramRef"] = {"parameterNotFoundAction": "Deny", **reference_to(params)}
    value = {"apiVersion": VERSION, "kind": BINDING, "metadata": {"name": name}, "spec": spec}
    return Thing(value, policy.place)


def reference_to(params: list[Thing]) -> dict[str, Any]:
    """What selects params: the name of one, or all of a namespace."""
    namespaces = {one.namespace for one in params if one.namespace}
    found: dict[str, Any] = {"namespace": namespaces.pop()} if len(namespaces) == 1 else {}
    return {**found, "name": params[0].name} if len(params) == 1 else {**found, "selector": {}}
