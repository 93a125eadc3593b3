"""Label selectors (meta/v1 LabelSelector) and the labels of objects."""

import re
from dataclasses import dataclass
from typing import Any, Iterable

from .fields import demand, field, objects, only, text, text_map, texts

NAME = re.compile(r"[A-Za-z0-9]([-A-Za-z0-9_.]{0,61}[A-Za-z0-9])?")
LABEL = r"[a-z0-9]([-a-z0-9]*[a-z0-9])?"
PREFIX = re.compile(rf"{LABEL}(\.{LABEL})*")
LONGEST_PREFIX = 253
SETS, PRESENCES = ("In", "NotIn"), ("Exists", "DoesNotExist")


@dataclass(frozen=True)
class Requirement:
    """A label key, an operator and the values that it takes."""

    key: str
    operator: str
    values: tuple[Any, ...]

    def fits(self, labels: dict[str, Any]) -> bool:
        """Whether labels meet it."""
        present = self.key in labels
        if self.operator == "In":
            return present and labels[self.key] in self.values
        if self.operator == "NotIn":
            return not present or labels[self.key] not in self.values
        return present == (self.operator == "Exists")


class Selector:
    """A selector as its requirements."""

    def __init__(self, requirements: Iterable[Any] = ()):
        self.requirements = tuple(requirements)

    @property
    def is_empty(self) -> bool:
        return not self.requirements

    def selects(self, labels: dict[str, Any]) -> bool:
        return all(requirement.fits(labels) for requirement in self.requirements)


def is_key(key: str) -> bool:
    """Whether a text is a label key: a name, maybe after a prefix and a slash."""
    prefix, slash, name = key.rpartition("/")
    if slash and not (len(prefix) <= LONGEST_PREFIX and PREFIX.fullmatch(prefix)):
        return False
    return NAME.fullmatch(name) is not None


def is_value(value: str) -> bool:
    return value == "" or NAME.fullmatch(value) is not None


def read_expression(expression: dict[str, Any], refusal: str) -> Requirement:
    """One entry of `matchExpressions`."""
    only(expression, ("key", "operator", "values"), refusal)
    key, operator = text(expression, "key", refusal), text(expression, "operator", refusal)
    values = texts(expression, "values", refusal)
    demand(operator in SETS + PRESENCES and bool(values) == (operator in SETS), refusal)
    return Requirement(key, operator, tuple(values))


def read(value: Any, refusal: str) -> Selector:
    """A selector that a cluster can store; absent selects everything."""
    if value is None:
        return Selector()
    only(value, ("matchLabels", "matchExpressions"), refusal)
    pairs = text_map(field(value, "matchLabels"), refusal)
    requirements = [Requirement(key, "In", (one,)) for key, one in pairs.items()]
    requirements += [read_expression(one, refusal) for one in objects(value, "matchExpressions", refusal)]
    for requirement in requirements:
        demand(is_key(requirement.key) and all(map(is_value, requirement.values)), refusal)
    return Selector(requirements)


def labels_of(thing: Any) -> dict[str, Any]:
    """The labels of an object, none if they are absent or not a map of texts."""
    found = field(thing, "metadata", "labels")
    if isinstance(found, dict) and all(isinstance(one, str) for one in found.values()):
        return found
    return {}


def has_metadata(thing: Any) -> bool:
    return field(thing, "metadata") is not None
