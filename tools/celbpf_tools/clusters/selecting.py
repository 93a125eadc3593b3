"""Selectors, rules and match resources."""

from typing import Any, Optional

from ..seeded.numbers import Numbers
from . import making
from .words import KEYS, KINDS, NAMES, OPERATIONS, VALUES, Kind

# a key that a cluster just stores
LONGEST = "a" * 253 + "/" + "b" * 63
# what no cluster stores in a selector
UNSTORABLE = [
    {"matchLabels": {"a b": "x"}}, {"matchLabels": {"env": "-x"}}, {"matchLabels": {"/env": "x"}},
    {"matchLabels": {"X.io/env": "x"}},
    {"matchLabels": {"a" * 64: "x"}}, {"matchExpressions": [{"key": "env", "operator": "Gt", "values": ["1"]}]},
    {"matchExpressions": [{"key": "env", "operator": "In", "values": []}]},
    {"matchExpressions": [{"key": "env", "operator": "In"}]},
    {"matchExpressions": [{"key": "env", "operator": "Exists", "values": ["x"]}]}, {"matchLabels": {"env": 1}},
    {"matchLabels": {"a" * 254 + "/env": "x"}}, {"matchExpressions": [{"key": "env", "operator": "In", "values": ["a", "b c"]}]},
    {"matchExpressions": [{"operator": "Exists"}]}, {"matchFields": []}, [],
]


class Selecting:
    """Makes what chooses requests; with `spoils` some of it is what no cluster stores."""

    def __init__(self, numbers: Numbers, spoils: bool):
        self.numbers = numbers
        self.spoils = spoils

    def is_spoiled(self, rarely: int) -> bool:
        return self.spoils and self.numbers.one_in(rarely)

    def some(self, values: list[Any], most: int) -> list[Any]:
        """At least one of a list, and at most this number."""
        return self.numbers.some(values, most - 1) or [self.numbers.pick(values)]

    def labels(self) -> dict[str, Any]:
        return {self.numbers.pick(KEYS): self.numbers.pick(VALUES) for _ in range(self.numbers.below(3))}

    def requirement(self) -> dict[str, Any]:
        numbers = self.numbers
        made: dict[str, Any] = {"key": numbers.pick(KEYS), "operator": numbers.pick(["In", "NotIn", "Exists", "DoesNotExist"])}
        if made["operator"] in ("In", "NotIn"):
            made["values"] = self.some(VALUES, 3)
        elif numbers.one_in(3):
            made["values"] = numbers.pick([[], None])
        return made

    def selector(self) -> dict[str, Any]:
        """A selector, which may be empty in one of several ways."""
        numbers = self.numbers
        if self.is_spoiled(12):
            return numbers.pick(UNSTORABLE)
        chosen = numbers.below(6)
        if chosen < 2:
            return {"matchLabels": {numbers.pick(KEYS): numbers.pick(VALUES)}}
        if chosen < 4:
            return {"matchExpressions": [self.requirement() for _ in range(1 + numbers.below(2))]}
        if chosen == 4:
            return numbers.pick([{}, {"matchLabels": {}, "matchExpressions": []}, {"matchLabels": None}, {"matchLabels": {LONGEST: "x"}}])
        return {"matchLabels": {"env": numbers.pick(VALUES)}, "matchExpressions": [self.requirement()]}

    def patterns(self, kind: Kind) -> list[Any]:
        """Patterns for a kind's resource."""
        numbers, plural = self.numbers, kind.plural
        sub = numbers.pick(kind.subresources)
        choices = [[plural], [plural], ["*"], ["*"], [f"{plural}/*"], [f"{plural}/{sub}"], [plural, f"{plural}/{sub}"]]
        return numbers.pick([*choices, ["*/*"], ["*/*"], [f"*/{sub}"], ["/"], [f"{plural}/"], [f"/{sub}"], [f"{plural}/*/*"], []])

    def rule(self) -> dict[str, Any]:
        """A rule, mostly for one kind."""
        numbers, kind = self.numbers, self.numbers.pick(KINDS)
        other = numbers.pick(KINDS)
        versions = [["*"], ["*"], [kind.version], [kind.version], [other.version], ["v1", "v1beta1"], ["v2"], []]
        groups = [["*"], [kind.group], [kind.group], [kind.group], [kind.group, other.group], [other.group]]
        made: dict[str, Any] = {
            "operations": numbers.pick([["*"], ["*"], ["CREATE", "UPDATE"], [numbers.pick(OPERATIONS)]]),
            "apiGroups": numbers.pick(groups),
            "apiVersions": numbers.pick(versions),
            "resources": self.patterns(kind),
        }
        if numbers.one_in(2):
            made["scope"] = numbers.pick(["*", "Cluster", "Namespaced", None])
        if numbers.one_in(6):
            made["resourceNames"] = numbers.pick([[numbers.pick(NAMES)], [""], [], ["other"]])
        if self.is_spoiled(15):
            made.update(numbers.pick([{"scope": "namespaced"}, {"resources": "pods"}, {"verbs": ["get"]}, {"operations": [1]}]))
        return made

    def everything(self) -> dict[str, Any]:
        """A rule for all main resources, or for subresources too."""
        made = making.rule([self.numbers.pick(["*", "*", "*/*"])])
        return {**made, "scope": self.numbers.pick(["Cluster", "Namespaced"])} if self.numbers.one_in(4) else made

    def rules(self) -> list[Any]:
        """One to three rules; every other time one for everything."""
        numbers = self.numbers
        if numbers.one_in(2):
            return [self.everything()]
        return [self.rule() for _ in range(1 + numbers.below(3))]

    def selectors(self) -> dict[str, Any]:
        """Match policy, selectors and excluded rules, each of which may be absent."""
        numbers = self.numbers
        made: dict[str, Any] = {}
        if numbers.one_in(2):
            made["matchPolicy"] = numbers.pick(["Exact", "Exact", "Equivalent", None])
        if numbers.one_in(3):
            made["namespaceSelector"] = self.selector()
        if numbers.one_in(4):
            made["objectSelector"] = self.selector()
        if numbers.one_in(6):
            made["excludeResourceRules"] = [self.rule()]
        if self.is_spoiled(15):
            made.update(numbers.pick([{"matchPolicy": "equivalent"}, {"rules": []}, {"excludeResourceRules": {}}]))
        return made

    def constraints(self) -> dict[str, Any]:
        """Which requests a policy is for."""
        if self.is_spoiled(15):
            return {"resourceRules": []}
        return {"resourceRules": self.rules(), **self.selectors()}

    def resources(self) -> Optional[dict[str, Any]]:
        """Which requests a binding is for: mostly all."""
        numbers = self.numbers
        if not numbers.one_in(3):
            return None
        rules = numbers.pick([{}, {"resourceRules": []}, {"resourceRules": self.rules()}])
        return {**rules, **self.selectors()}
