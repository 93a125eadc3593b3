"""Rules (NamedRuleWithOperations), and the resources that may be equivalent to a requested one."""

from dataclasses import dataclass
from typing import Any, Iterable, Iterator

from .attributes import Attributes
from .fields import demand, objects, only, text, texts

LISTS = ("operations", "apiGroups", "apiVersions", "resources", "resourceNames")
SCOPES = ("*", "Cluster", "Namespaced")
YES, NO, UNKNOWN = "yes", "no", "unknown"
# plural resources that two groups have in one place of storage
SAME_STORAGE = {
    "events": ("", "events.k8s.io"),
    "deployments": ("extensions", "apps"),
    "daemonsets": ("extensions", "apps"),
    "replicasets": ("extensions", "apps"),
    "ingresses": ("extensions", "networking.k8s.io"),
    "networkpolicies": ("extensions", "networking.k8s.io"),
}
# a version that no rule names
FRESH = "\0another version"


@dataclass
class Rule:
    """One rule; empty `names` take every name."""

    scope: str
    operations: list[Any]
    groups: list[Any]
    versions: list[Any]
    resources: list[Any]
    names: list[Any]

    def fits(self, attributes: Attributes, resource: tuple[Any, ...]) -> bool:
        """Whether it fits the request, if that asked for this group, version and resource."""
        group, version, plural = resource
        is_cluster = resource == ("", "v1", "namespaces") or attributes.namespace == ""
        return (
            (self.scope == "*" or (self.scope == "Cluster") == is_cluster)
            and has(self.operations, attributes.operation)
            and has(self.groups, group)
            and has(self.versions, version)
            and any(covers(pattern, plural, attributes.subresource) for pattern in self.resources)
            and (not self.names or attributes.name in self.names)
        )

    def may_fit(self, attributes: Attributes) -> bool:
        """Whether it fits some other version or group of the requested resource."""
        return any(self.fits(attributes, one) for one in candidates(self, attributes.resource))


def has(names: list[Any], name: str) -> bool:
    return "*" in names or name in names


def covers(pattern: str, plural: str, subresource: str) -> bool:
    """Whether a resource pattern takes a resource and subresource."""
    main, _, sub = pattern.partition("/")
    return main in ("*", plural) and sub in ("*", subresource)


def candidates(rule: Rule, resource: tuple[Any, ...]) -> Iterator[tuple[Any, ...]]:
    """The equivalent resources that a rule may take or not; all others are like one of them."""
    group, version, plural = resource
    versions = {*rule.versions, "v1", FRESH}
    for other in versions - {version}:
        yield group, other, plural
    pair = SAME_STORAGE.get(plural, ())
    if group in pair:
        for other_group in set(pair) - {group}:
            for other in versions:
                yield other_group, other, plural


def answer(rules: Iterable[Any], policy: str, attributes: Attributes) -> str:
    """Whether some rule fits: yes, no, or that it depends on what the server serves."""
    if any(rule.fits(attributes, attributes.resource) for rule in rules):
        return YES
    if policy == "Equivalent" and any(rule.may_fit(attributes) for rule in rules):
        return UNKNOWN
    return NO


def read_rule(value: dict[str, Any], refusal: str) -> Rule:
    only(value, ("scope", *LISTS), refusal)
    scope = text(value, "scope", refusal, "*")
    demand(scope in SCOPES, refusal)
    return Rule(scope, *(texts(value, key, refusal) for key in LISTS))


def read(value: Any, key: str, refusal: str) -> list[Any]:
    """The rules of a list, none if it is absent."""
    return [read_rule(one, refusal) for one in objects(value, key, refusal)]
