"""Match resources (matchConstraints of a policy, matchResources of a binding)."""

from dataclasses import dataclass
from typing import Any, Union

from . import labels, rules
from .attributes import WRITES, Attributes
from .fields import demand, field, only, text
from .quotes import go_quoted
from .rules import NO, UNKNOWN, YES

KEYS = ("namespaceSelector", "objectSelector", "resourceRules", "excludeResourceRules", "matchPolicy")
NO_NAME = "Internal error occurred: resource name may not be empty"


@dataclass
class Trouble:
    """What is needed to decide could not be looked at; `text` is the server's."""

    text: str


@dataclass
class MatchResources:
    """Selectors and rules; the default takes everything."""

    policy: str = "Equivalent"
    namespaces: labels.Selector = labels.Selector()
    objects: labels.Selector = labels.Selector()
    taken: tuple[Any, ...] = ()
    excluded: tuple[Any, ...] = ()

    def namespace_answer(self, attributes: Attributes, namespaces: dict[str, Any]) -> Union[str, Trouble]:
        """By the labels of the namespace."""
        is_namespace = attributes.resource[2] == "namespaces"
        if attributes.namespace == "" and not is_namespace:
            return YES
        if self.namespaces.is_empty:
            return YES
        if is_namespace and attributes.subresource == "" and attributes.operation in WRITES:
            return self.by_labels(attributes.new)
        if attributes.namespace == "":
            return Trouble(NO_NAME)
        if attributes.namespace not in namespaces:
            return Trouble(not_found(attributes.namespace))
        return self.by_labels(namespaces[attributes.namespace])

    def by_labels(self, thing: Any) -> str:
        return YES if self.namespaces.selects(labels.labels_of(thing)) else NO

    def object_answer(self, attributes: Attributes) -> str:
        """By the labels of the object or of the old one."""
        if self.objects.is_empty:
            return YES
        things = [one for one in (attributes.new, attributes.old) if labels.has_metadata(one)]
        return YES if any(self.objects.selects(labels.labels_of(one)) for one in things) else NO

    def answer(self, attributes: Attributes, namespaces: dict[str, Any]) -> Union[str, Trouble]:
        """YES, NO, UNKNOWN or a Trouble."""
        by_namespace = self.namespace_answer(attributes, namespaces)
        if by_namespace == NO or self.object_answer(attributes) == NO:
            return NO
        excluded = rules.answer(self.excluded, self.policy, attributes)
        if excluded != NO:
            return NO if excluded == YES else UNKNOWN
        if self.taken:
            taken = rules.answer(self.taken, self.policy, attributes)
            if taken != YES:
                return taken
        return by_namespace


def not_found(name: str) -> str:
    return f"namespaces {go_quoted(name)} not found"


def read(value: Any, refusal: str, needs_rules: bool) -> MatchResources:
    """Match resources that a cluster can store."""
    if value is None:
        demand(not needs_rules, refusal)
        return MatchResources()
    only(value, KEYS, refusal)
    policy = text(value, "matchPolicy", refusal, "Equivalent")
    demand(policy in ("Exact", "Equivalent"), refusal)
    taken = rules.read(value, "resourceRules", refusal)
    demand(taken or not needs_rules, refusal)
    return MatchResources(
        policy,
        labels.read(field(value, "namespaceSelector"), refusal),
        labels.read(field(value, "objectSelector"), refusal),
        tuple(taken),
        tuple(rules.read(value, "excludeResourceRules", refusal)),
    )
