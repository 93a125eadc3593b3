"""What else an API server does not store of a policy or a binding, beside the lists of its rules: selectors, kinds and actions.

The words are those of its validation of admission registrations. What the gatekeeper refuses with C5 or C6 is among it.
"""

import json
import re
from collections.abc import Iterator
from typing import Any

from .cluster import BINDING, POLICY, is_of, spec_of
from .inputs import Thing
from .positions import Path
from .rules import CONSTRAINTS, REQUIRED, RULES, Refusal, invalid

CONSTRAINT_KEYS = ("namespaceSelector", "objectSelector", *RULES, "matchPolicy")
RULE_KEYS = ("operations", "apiGroups", "apiVersions", "resources", "resourceNames", "scope")
BINDING_KEYS = ("policyName", "paramRef", "matchResources", "validationActions")
PARAM_KEYS = ("name", "namespace", "selector", "parameterNotFoundAction")
MATCHES, SCOPES, ACTIONS, ABSENT = ("Equivalent", "Exact"), ("*", "Cluster", "Namespaced"), ("Audit", "Deny", "Warn"), ("Allow", "Deny")
SETS, PRESENCES = ("In", "NotIn"), ("DoesNotExist", "Exists")
UNKNOWN = "there is no such field"
NO_OBJECT, NO_TEXT, NO_TEXTS = "it is no object", "it is no text", "it is no list of texts"
PREFIX = re.compile(r"[a-z0-9]([-a-z0-9]*[a-z0-9])?(\.[a-z0-9]([-a-z0-9]*[a-z0-9])?)*")
NAME = re.compile(r"[A-Za-z0-9]([-A-Za-z0-9_.]{0,61}[A-Za-z0-9])?")
LONGEST_PREFIX = 253


def unsupported(path: Path, value: Any, known: tuple[str, ...]) -> Refusal:
    """That a value is none of those that there are."""
    listed = ", ".join(map(json.dumps, known))
    return Refusal(path, f"Unsupported value: {json.dumps(value, ensure_ascii=False)}: supported values: {listed}")


def field_refusals(thing: Thing, needs_constraints: bool = False) -> Iterator[Refusal]:
    """What is not stored of a policy or a binding; nothing of other objects. `needs_constraints` tells whether a policy has to
    have rules.
    """
    spec = spec_of(thing)
    if is_of(thing, POLICY):
        yield from of_constraints(spec.get(CONSTRAINTS[POLICY]), ("spec", CONSTRAINTS[POLICY]), needs_constraints)
        yield from of_param_kind(spec.get("paramKind"), ("spec", "paramKind"))
    elif is_of(thing, BINDING):
        yield from of_binding(thing.value.get("spec"))


def of_keys(value: Any, path: Path, keys: tuple[str, ...]) -> Iterator[Refusal]:
    """That a value is no object, or has keys that there are not."""
    if not isinstance(value, dict):
        yield Refusal(path, invalid(value, NO_OBJECT))
        return
    for key in value:
        if key not in keys:
            yield Refusal((*path, key), UNKNOWN)


def of_text(value: Any, path: Path, known: tuple[str, ...] = ()) -> Iterator[Refusal]:
    """That a text is not there, or none of those that there are."""
    if value in (None, ""):
        yield Refusal(path, REQUIRED)
    elif not isinstance(value, str):
        yield Refusal(path, invalid(value, NO_TEXT))
    elif known and value not in known:
        yield unsupported(path, value, known)


def is_texts(value: Any) -> bool:
    """Whether a value is a list of texts, or absent."""
    return value is None or isinstance(value, list) and all(isinstance(one, str) for one in value)


def of_constraints(value: Any, path: Path, needs_rules: bool) -> Iterator[Refusal]:
    """What is not stored of the constraints of a policy or a binding."""
    if value is None:
        yield from [Refusal(path, REQUIRED)] * needs_rules
        return
    yield from of_keys(value, path, CONSTRAINT_KEYS)
    if not isinstance(value, dict):
        return
    for key in ("namespaceSelector", "objectSelector"):
        if value.get(key) is not None:
            yield from of_selector(value[key], (*path, key))
    if needs_rules and value.get(RULES[0]) in (None, []):
        yield Refusal((*path, RULES[0]), REQUIRED)
    for key in RULES:
        rules = value.get(key)
        for place, rule in enumerate(rules if isinstance(rules, list) else ()):
            if isinstance(rule, dict):
                yield from of_rule(rule, (*path, key, place))
    if value.get("matchPolicy") is not None:
        yield from of_text(value["matchPolicy"], (*path, "matchPolicy"), MATCHES)


def of_rule(rule: dict[str, Any], path: Path) -> Iterator[Refusal]:
    """What is not stored of a rule, but for the lists that it has to have."""
    yield from of_keys(rule, path, RULE_KEYS)
    if not is_texts(rule.get("resourceNames")):
        yield Refusal((*path, "resourceNames"), invalid(rule["resourceNames"], NO_TEXTS))
    scope = rule.get("scope")
    if scope == "":
        yield unsupported((*path, "scope"), scope, SCOPES)
    elif scope is not None:
        yield from of_text(scope, (*path, "scope"), SCOPES)


def of_selector(value: Any, path: Path) -> Iterator[Refusal]:
    """What is not stored of a selector of labels."""
    yield from of_keys(value, path, ("matchLabels", "matchExpressions"))
    if not isinstance(value, dict):
        return
    labels, expressions = value.get("matchLabels") or {}, value.get("matchExpressions") or []
    if not isinstance(labels, dict):
        yield Refusal((*path, "matchLabels"), invalid(labels, NO_OBJECT))
    for key, one in labels.items() if isinstance(labels, dict) else ():
        yield from of_label(key, one, (*path, "matchLabels"))
    if not isinstance(expressions, list):
        yield Refusal((*path, "matchExpressions"), invalid(expressions, "it is no list"))
    for place, one in enumerate(expressions if isinstance(expressions, list) else ()):
        yield from of_expression(one, (*path, "matchExpressions", place))


def of_label(key: str, value: Any, path: Path) -> Iterator[Refusal]:
    """What is not stored of a label that is asked for."""
    if not is_key(key):
        yield Refusal(path, invalid(key, "it is no key of a label"))
    if not isinstance(value, str):
        yield Refusal((*path, key), invalid(value, NO_TEXT))
    elif not is_value(value):
        yield Refusal((*path, key), invalid(value, "it is no value of a label"))


def of_expression(value: Any, path: Path) -> Iterator[Refusal]:
    """What is not stored of a requirement of a selector."""
    yield from of_keys(value, path, ("key", "operator", "values"))
    if not isinstance(value, dict):
        return
    key, operator, values = (value.get(name) for name in ("key", "operator", "values"))
    if not isinstance(key, str) or not is_key(key):
        yield Refusal((*path, "key"), invalid(key, "it is no key of a label"))
    yield from of_text(operator, (*path, "operator"), (*PRESENCES, *SETS))
    if not is_texts(values):
        yield Refusal((*path, "values"), invalid(values, NO_TEXTS))
    elif operator in SETS and not values:
        yield Refusal((*path, "values"), f"{REQUIRED}: must be specified when `operator` is 'In' or 'NotIn'")
    elif operator in PRESENCES and values:
        yield Refusal((*path, "values"), "Forbidden: may not be specified when `operator` is 'Exists' or 'DoesNotExist'")
    else:
        wrong = ((place, one) for place, one in enumerate(values or ()) if not is_value(one))
        yield from (Refusal((*path, "values", place), invalid(one, "it is no value of a label")) for place, one in wrong)


def is_key(key: str) -> bool:
    """Whether a text is the key of a label: a name, perhaps after a prefix and a slash."""
    prefix, slash, name = key.rpartition("/")
    return bool(NAME.fullmatch(name)) and (not slash or len(prefix) <= LONGEST_PREFIX and bool(PREFIX.fullmatch(prefix)))


def is_value(value: str) -> bool:
    """Whether a text is the value of a label."""
    return value == "" or bool(NAME.fullmatch(value))


def of_param_kind(value: Any, path: Path) -> Iterator[Refusal]:
    """What is not stored of the kind of params, which may be absent."""
    if value is None:
        return
    yield from of_keys(value, path, ("apiVersion", "kind"))
    for key in ("apiVersion", "kind") if isinstance(value, dict) else ():
        yield from of_text(value.get(key), (*path, key))


def of_binding(spec: Any) -> Iterator[Refusal]:
    """What is not stored of the specification of a binding."""
    if spec is None:
        yield Refusal(("spec",), REQUIRED)
        return
    yield from of_keys(spec, ("spec",), BINDING_KEYS)
    if not isinstance(spec, dict):
        return
    yield from of_text(spec.get("policyName"), ("spec", "policyName"))
    yield from of_actions(spec.get("validationActions"), ("spec", "validationActions"))
    yield from of_constraints(spec.get(CONSTRAINTS[BINDING]), ("spec", CONSTRAINTS[BINDING]), False)
    if spec.get("paramRef") is not None:
        yield from of_param_ref(spec["paramRef"], ("spec", "paramRef"))


def of_actions(value: Any, path: Path) -> Iterator[Refusal]:
    """What is not stored of the actions of a binding."""
    if value in (None, []):
        yield Refusal(path, REQUIRED)
    elif not is_texts(value):
        yield Refusal(path, invalid(value, NO_TEXTS))
    else:
        for place, one in enumerate(value):
            if one not in ACTIONS:
                yield unsupported((*path, place), one, ACTIONS)
            elif one in value[:place]:
                yield Refusal((*path, place), f"Duplicate value: {json.dumps(one)}")
        if {"Deny", "Warn"} <= set(value):
            yield Refusal(path, invalid(value, "must not contain both Deny and Warn"))


def of_param_ref(value: Any, path: Path) -> Iterator[Refusal]:
    """What is not stored of what names the params of a binding."""
    yield from of_keys(value, path, PARAM_KEYS)
    if not isinstance(value, dict):
        return
    texts = [key for key in ("name", "namespace") if value.get(key) is not None]
    yield from (Refusal((*path, key), invalid(value[key], NO_TEXT)) for key in texts if not isinstance(value[key], str))
    name, selector = value.get("name") or "", value.get("selector")
    if name and selector is not None:
        yield Refusal((*path, "name"), "Forbidden: name and selector are mutually exclusive")
    elif not name and selector is None:
        yield Refusal(path, f"{REQUIRED}: one of name or selector must be specified")
    if selector is not None:
        yield from of_selector(selector, (*path, "selector"))
    yield from of_text(value.get("parameterNotFoundAction"), (*path, "parameterNotFoundAction"), ABSENT)
