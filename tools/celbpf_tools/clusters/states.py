"""Whole states, and what makes one that is refused."""

import json
from typing import Any

from ..seeded.numbers import Numbers
from . import making
from .policies import Policies
from .words import BINDING_NAMES, NAMESPACES, PARAM_NAMES, POLICY_NAMES

# documents that are no list
NO_LISTS = [b"", b"{", b"[]", b'{"apiVersion":"v1","kind":"List"}', b'{"apiVersion":"v1","kind":"Namespace","items":[]}', b"\xff"]
# items of no known form
NO_ITEMS: list[Any] = [
    1, {}, {"apiVersion": "v1", "kind": "Pod", "metadata": {"name": ""}}, {"apiVersion": "v1", "metadata": {"name": "a"}},
    making.thing("Pod", "a", namespace=1), making.thing("Pod", "a", labels={"a": None}), making.thing("Pod", "a", labels=[]),
    making.thing("ValidatingAdmissionPolicy", "p", f"{making.GROUP}/v1beta1"),
    making.thing("ValidatingAdmissionPolicyBinding", "p", f"{making.GROUP}/v1alpha1"),
]


class States:
    """Makes the lists of a state."""

    def __init__(self, numbers: Numbers):
        self.numbers = numbers
        # half of the states have nothing that is refused
        spoiled = numbers.pick(["", "", "", "lists", "selectors", "policies"])
        self.breaks, self.refuses = spoiled == "lists", spoiled == "policies"
        self.policies = Policies(numbers, spoiled == "selectors", self.refuses)

    def odd(self, rarely: int) -> dict[str, Any]:
        """Now and then a number that no root may have."""
        return {"share": self.numbers.pick([0.5, 2**63, -(2**63) - 1])} if self.numbers.one_in(rarely) else {}

    def namespaces(self) -> list[Any]:
        made = []
        for name in NAMESPACES:
            if not self.numbers.one_in(4):
                labels = {**self.policies.labels(), "kubernetes.io/metadata.name": name}
                made.append({**making.thing("Namespace", name, labels=labels), "status": {"phase": "Active"}, **self.odd(60)})
        return made

    def with_labels(self) -> dict[str, Any]:
        return {"labels": self.policies.labels()} if self.numbers.one_in(2) else {}

    def config_maps(self) -> list[Any]:
        """ConfigMaps of all namespaces, also of those that are not listed."""
        made = []
        for space in NAMESPACES:
            for name in self.numbers.some(PARAM_NAMES, 5):
                data = {"data": {"most": self.numbers.pick(["1", "2"])}}
                made.append({**making.thing("ConfigMap", name, namespace=space, **self.with_labels()), **data, **self.odd(15)})
        if self.numbers.one_in(6):
            # kubectl prints none without a namespace
            made.append(making.thing("ConfigMap", "a", namespace=self.numbers.pick(["", None])))
        return made

    def limits(self) -> list[Any]:
        """A definition of limits with some of them; of the kind the scope or the version may be another."""
        numbers = self.numbers
        scope = numbers.pick(["Namespaced", "Namespaced", "Cluster", "Both"] if self.refuses else ["Namespaced", "Cluster"])
        versions = numbers.pick([["v1"], ["v1", "v2"], ["v2"]] if self.refuses else [["v1"], ["v1alpha1", "v1"]])
        made: list[Any] = [making.definition("x.io", "Limit", "limits", scope, versions)]
        if self.refuses and numbers.one_in(4):
            made[0]["spec"]["versions"][0]["served"] = False
        if self.refuses and numbers.one_in(5):
            made = []
        for name in numbers.some(PARAM_NAMES, 4):
            place = {} if scope == "Cluster" else {"namespace": numbers.pick(NAMESPACES)}
            made.append(making.thing("Limit", name, "x.io/v1", **place, **self.with_labels()))
        if self.refuses and numbers.one_in(3):
            made.append(making.thing("Limit", "other", "x.io/v2", namespace="prod"))
        return made

    def bound(self) -> list[Any]:
        """Policies, each with some bindings, and a binding of none."""
        numbers = self.numbers
        names = iter([f"{name}{place or ''}" for place in range(4) for name in BINDING_NAMES])
        made = []
        for name in numbers.some(POLICY_NAMES, 5):
            made.append(self.policies.policy(name))
            made += [self.policies.binding(next(names), name) for _ in range(numbers.pick([0, 1, 1, 1, 2, 3]))]
        return [*made, self.policies.binding("none", "none")] if numbers.one_in(6) else made

    def shuffled(self, items: list[Any]) -> list[Any]:
        """The items in another order."""
        left, made = list(items), []
        while left:
            made.append(left.pop(self.numbers.below(len(left))))
        return made

    def items(self) -> list[Any]:
        """All items; now and then one is broken or there twice, or the namespaces are forgotten."""
        numbers = self.numbers
        spaces = [] if self.breaks and numbers.one_in(8) else self.namespaces()
        made = self.shuffled([*self.bound(), *spaces, *self.config_maps(), *self.limits()])
        if self.breaks and numbers.one_in(4):
            made.insert(numbers.below(len(made) + 1), numbers.pick(NO_ITEMS))
        if self.breaks and made and numbers.one_in(8):
            made.append(numbers.pick(made))
        return made

    def lists(self) -> list[Any]:
        """The texts of one to three lists."""
        numbers, items = self.numbers, self.items()
        cuts = sorted(numbers.below(len(items) + 1) for _ in range(numbers.pick([0, 0, 1, 2])))
        parts = [items[begin:end] for begin, end in zip([0, *cuts], [*cuts, len(items)])]
        made = [self.text(part) for part in parts]
        if self.breaks and numbers.one_in(8):
            made.insert(numbers.below(len(made) + 1), numbers.pick(NO_LISTS))
        return made

    def text(self, items: list[Any]) -> bytes:
        """A list as a text, compact or laid out."""
        whole: dict[str, Any] = {"apiVersion": "v1", "items": items, "kind": "List", "metadata": {"resourceVersion": ""}}
        numbers = self.numbers
        return json.dumps(whole, indent=4 if numbers.one_in(3) else None, ensure_ascii=numbers.one_in(2)).encode()
