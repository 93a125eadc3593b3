"""The rules of policies and bindings that an API server does not store, by its own validation of admission registrations.

A rule that it would not store matches nothing, such as one with the operation `create`.
"""

import json
import os
import pathlib
from collections.abc import Iterator
from dataclasses import dataclass
from typing import Any, Optional

from .cluster import BINDING, POLICY, NoState, is_of, spec_of
from .inputs import Thing
from .positions import Marks, Path, Position

# by kind, where the rules of its specification are, and the gatekeeper's code for one that is not stored
CONSTRAINTS = {POLICY: "matchConstraints", BINDING: "matchResources"}
CODES = {POLICY: "C6", BINDING: "C5"}
RULES = ("resourceRules", "excludeResourceRules")
OPERATIONS = ("*", "CONNECT", "CREATE", "DELETE", "UPDATE")
REQUIRED = "Required value"
# what a list may not have beside `*`
OTHERS = {"operations": "operations", "apiGroups": "API groups", "apiVersions": "API versions"}


@dataclass(frozen=True)
class Refusal:
    """A part of a rule that is not stored: its path in the document, and what is said of it."""

    path: Path
    meaning: str

    @property
    def key(self) -> str:
        """The path as API servers write it."""
        return text_of(self.path)


def text_of(path: Path) -> str:
    """A path, as `spec.matchConstraints.resourceRules[0].operations`."""
    return "".join(f"[{one}]" if isinstance(one, int) else f".{one}" for one in path).removeprefix(".")


def invalid(value: Any, why: str) -> str:
    """What is said of a value that may not be there."""
    return f"Invalid value: {json.dumps(value, ensure_ascii=False)}: {why}"


def refusals(thing: Thing) -> Iterator[Refusal]:
    """What is not stored of the rules of a policy or a binding; nothing of other objects."""
    if not is_of(thing, POLICY) and not is_of(thing, BINDING):
        return
    name = CONSTRAINTS[thing.kind]
    constraints: Any = spec_of(thing).get(name)
    for key in RULES if isinstance(constraints, dict) else ():
        yield from of_rules(constraints.get(key), ("spec", name, key))


def of_rules(rules: Any, path: Path) -> Iterator[Refusal]:
    """What is not stored of a list of rules, which may be absent."""
    if rules is not None and not isinstance(rules, list):
        yield Refusal(path, invalid(rules, "it is no list"))
        return
    for place, rule in enumerate(rules or ()):
        if isinstance(rule, dict):
            yield from of_rule(rule, (*path, place))
        else:
            yield Refusal((*path, place), invalid(rule, "it is no object"))


def of_rule(rule: dict[str, Any], path: Path) -> Iterator[Refusal]:
    """What is not stored of a rule."""
    for key in (*OTHERS, "resources"):
        given, own = rule.get(key), (*path, key)
        if given in (None, []):
            yield Refusal(own, REQUIRED)
        elif not isinstance(given, list) or not all(isinstance(one, str) for one in given):
            yield Refusal(own, invalid(given, "it is no list of texts"))
        elif key == "resources":
            yield from of_resources(given, own)
        else:
            if len(given) > 1 and "*" in given:
                yield Refusal(own, invalid(given, f"if '*' is present, must not specify other {OTHERS[key]}"))
            yield from of_items(key, given, own)


def of_items(key: str, given: list[str], path: Path) -> Iterator[Refusal]:
    """What is not stored of the operations or the versions of a rule, one by one."""
    for place, one in enumerate(given):
        if key == "operations" and one not in OPERATIONS:
            listed = ", ".join(map(json.dumps, OPERATIONS))
            yield Refusal((*path, place), f"Unsupported value: {json.dumps(one, ensure_ascii=False)}: supported values: {listed}")
        elif key == "apiVersions" and not one:
            yield Refusal((*path, place), REQUIRED)


def of_resources(given: list[str], path: Path) -> Iterator[Refusal]:
    """What is not stored of the resources of a rule. As in an API server, what covers a resource counts from where it is on,
    and of those without a subresource the last one alone is compared with `*`.
    """
    with_all, of_all, plain = set[str](), set[str](), ""
    for place, one in enumerate(given):
        resource, slash, below = one.partition("/")
        if not one:
            yield Refusal((*path, place), REQUIRED)
        elif not slash:
            plain = one
        else:
            for cover in [f"{resource}/*"] * (resource in with_all) + [f"*/{below}"] * (below in of_all):
                yield Refusal((*path, place), invalid(one, f"if '{cover}' is present, must not specify {one}"))
            with_all |= {resource} if below == "*" else set()
            of_all |= {below} if resource == "*" else set()
    if len(given) > 1 and "*/*" in given:
        yield Refusal(path, invalid(given, "if '*/*' is present, must not specify other resources"))
    if "*" in given and plain not in ("", "*"):
        yield Refusal(path, invalid(given, "if '*' is present, must not specify other resources without subresources"))


def position_of(thing: Thing, path: Path, marks: Optional[Marks]) -> Position:
    """The place of a path in the file of an object, or of what it would be in."""
    first = Position(max(1, thing.place.line))
    if marks is None:
        return first
    found = (marks.of_key(thing.place.line, path[:end]) for end in range(len(path), 0, -1))
    return next((one for one in found if one.column), first)


def marks_of(file: str) -> Optional[Marks]:
    """The places in a file, if it can be read again."""
    try:
        return Marks(pathlib.Path(file).read_text(encoding="utf-8-sig")) if os.path.isfile(file) else None
    except (OSError, ValueError):
        return None


def refuse_rules(things: list[Thing]) -> None:
    """Refuses objects with rules that are not stored. The files of these alone are read again."""
    told, marks = [], dict[str, Optional[Marks]]()
    for thing in things:
        file = thing.place.file
        for one in refusals(thing):
            if file not in marks:
                marks[file] = marks_of(file)
            line = position_of(thing, one.path, marks[file]).line
            told.append(f"{file}:{line}: {thing.title}: {one.key}: {one.meaning} ({CODES[thing.kind]})")
    if told:
        raise NoState(told)
