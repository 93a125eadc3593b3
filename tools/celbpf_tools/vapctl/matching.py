"""Why a request does not match constraints: the selectors, rules and exclusions that keep it out."""

from collections.abc import Iterator
from dataclasses import dataclass, field
from typing import Any, Optional

from .cluster import State, is_namespace
from .probes import EVERY_RULE, EVERYTHING, Found, Probe

NAMESPACES, OBJECTS = "namespaceSelector", "objectSelector"
RULES, EXCLUSIONS = "resourceRules", "excludeResourceRules"
# the parts of a rule
DIMENSIONS = ("operations", "apiGroups", "apiVersions", "resources", "scope", "resourceNames")


def texts(value: Any) -> list[str]:
    """A list of a rule or of a requirement, in which the core group is seen."""
    return [str(one) or '""' for one in value] if isinstance(value, list) else [str(value)]


def labels_of(thing: Any) -> dict[str, Any]:
    """The labels of an object, none if it has none."""
    metadata = thing.get("metadata") if isinstance(thing, dict) else None
    labels = metadata.get("labels") if isinstance(metadata, dict) else None
    return labels if isinstance(labels, dict) else {}


@dataclass
class Asked:
    """What matching sees of a request."""

    request: dict[str, Any]
    state: State

    def text(self, key: str) -> str:
        return str(self.request.get(key) or "")

    def of_rule(self, dimension: str) -> str:
        """What a part of a rule is compared with."""
        resource: dict[str, Any] = self.request.get("resource") or {}
        below = f"/{self.text('subResource')}" if self.text("subResource") else ""
        return {
            "operations": self.text("operation"), "apiGroups": str(resource.get("group") or '""'),
            "apiVersions": str(resource.get("version")), "resources": f"{resource.get('resource')}{below}",
            "scope": "Namespaced" if self.text("namespace") and not self.is_of_namespace else "Cluster",
            "resourceNames": self.text("name") or "none",
        }[dimension]

    @property
    def is_of_namespace(self) -> bool:
        """Whether a Namespace is asked for, whose request has its own name as namespace."""
        resource: dict[str, Any] = self.request.get("resource") or {}
        return (resource.get("group") or "", resource.get("resource")) == ("", "namespaces")

    @property
    def namespace(self) -> Optional[dict[str, Any]]:
        """The Namespace of the request in the state."""
        found = [one.value for one in self.state.things if is_namespace(one) and one.name == self.text("namespace")]
        return found[0] if found else None

    def selected(self, selector: str) -> tuple[str, dict[str, Any]]:
        """What a selector selects by, and its labels."""
        is_own = self.of_rule("resources") == "namespaces" and self.text("operation") != "DELETE"
        if selector == OBJECTS or is_own:
            return "the object", labels_of(self.request.get("object") or self.request.get("oldObject"))
        return f"namespace {self.text('namespace')}", labels_of(self.namespace)


@dataclass
class Part:
    """A part of constraints: how it is called, a probe of it alone, and its own parts."""

    told: str
    probe: Probe
    parts: list["Part"] = field(default_factory=list)
    kind: str = ""

    def all(self) -> Iterator["Part"]:
        """This part, and then its own."""
        yield self
        yield from self.parts


def requirements(selector: dict[str, Any]) -> Iterator[tuple[str, str, dict[str, Any]]]:
    """The key of each requirement, how it is written for `kubectl`, and a selector that has it alone."""
    for key, value in (selector.get("matchLabels") or {}).items():
        yield key, f"{key}={value}", {"matchLabels": {key: value}}
    for one in selector.get("matchExpressions") or ():
        listed = f"({', '.join(texts(one.get('values') or []))})"
        key, operator = str(one.get("key")), one.get("operator")
        written = {"In": f"{key} in {listed}", "NotIn": f"{key} notin {listed}", "Exists": key}.get(str(operator), f"!{key}")
        yield key, written, {"matchExpressions": [one]}


def of_selector(name: str, selector: dict[str, Any], asked: Asked) -> Part:
    """A selector, with a part for each requirement."""
    who, labels = asked.selected(name)
    made = Part(name, Probe({**EVERYTHING, name: selector}), kind=name)
    for key, written, alone in requirements(selector):
        has = f"{key}={labels[key]}" if key in labels else f"no label {key}"
        made.parts.append(Part(f"{written} is asked, and {who} has {has}", Probe({**EVERYTHING, name: alone})))
    return made


def of_rule(place: int, rule: dict[str, Any], policy: dict[str, Any], asked: Asked) -> Part:
    """A rule, with a part for each of its lists; these are compared with the resource as it is asked for."""
    made = Part(f"rule {place}", Probe({**policy, "resourceRules": [rule]}), kind=RULES)
    for key in DIMENSIONS:
        if rule.get(key):
            alone = {"matchPolicy": "Exact", "resourceRules": [{**EVERY_RULE, key: rule[key]}]}
            made.parts.append(Part(f"{key} {', '.join(texts(rule[key]))}, not {asked.of_rule(key)}", Probe(alone)))
    return made


def parts_of(constraints: dict[str, Any], asked: Asked) -> list[Part]:
    """The parts of constraints."""
    policy = {"matchPolicy": constraints["matchPolicy"]} if constraints.get("matchPolicy") else {}
    made = [of_selector(name, constraints[name], asked) for name in (NAMESPACES, OBJECTS) if constraints.get(name)]
    made += [of_rule(place, rule, policy, asked) for place, rule in enumerate(constraints.get(RULES) or ())]
    for place, rule in enumerate(constraints.get(EXCLUSIONS) or ()):
        made.append(Part(f"{EXCLUSIONS} {place} leaves it out", Probe({**policy, "resourceRules": [rule]}), kind=EXCLUSIONS))
    return made


def whole(constraints: dict[str, Any]) -> Probe:
    """A probe of whole constraints; those of a binding need not have rules."""
    return Probe({**EVERYTHING, **{key: value for key, value in constraints.items() if value}})


def told(parts: list[Part], found: dict[int, Found]) -> list[str]:
    """What keeps a request out, by what each part finds."""
    has_rule = any(found[id(part)].is_matched for part in parts if part.kind == RULES)
    lines = []
    for part in parts:
        is_out = found[id(part)].is_matched == (part.kind == EXCLUSIONS)
        if is_out and not (part.kind == RULES and has_rule):
            inner = "; ".join(one.told for one in part.parts if not found[id(one)].is_matched)
            lines.append(f"{part.told}: {inner}" if inner else part.told)
    return lines or ["its constraints do not match"]
