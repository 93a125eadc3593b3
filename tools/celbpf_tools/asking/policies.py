"""The parts of a policy, and small policies of one expression."""

import json
import re
from dataclasses import dataclass
from typing import Any, Iterator, Optional

API_VERSION = "admissionregistration.k8s.io/v1"
KIND = "ValidatingAdmissionPolicy"
WORD = re.compile(r"[A-Za-z_][A-Za-z0-9_]*")
# the word of a refusal for each list, with the key of a part's text in it
LISTS = [("variable", "variables", "expression"), ("condition", "matchConditions", "expression")]
VALIDATIONS = [("validation", "expression"), ("message", "messageExpression")]


@dataclass
class Part:
    """An expression of a policy: its kind as refusals name it, its place, its text, and the variables in scope."""

    kind: str
    place: int
    text: str
    scope: list[Any]
    name: str = ""

    @property
    def title(self) -> str:
        """How the part is called."""
        named = f" {self.name}" if self.name else ""
        return f"{'message of validation' if self.kind == 'message' else self.kind} {self.place}{named}"


def read(path: str) -> dict[str, Any]:
    """What a policy's document says."""
    with open(path, encoding="utf-8") as file:
        return json.load(file)


def whole(spec: dict[str, Any]) -> dict[str, Any]:
    """A policy with this specification."""
    return {"apiVersion": API_VERSION, "kind": KIND, "spec": spec}


def parts(policy: dict[str, Any]) -> Iterator[Part]:
    """The parts of a policy that is read, in the order in which they are compiled."""
    spec = policy["spec"]
    variables = spec.get("variables") or []
    for kind, key, text in LISTS:
        for place, named in enumerate(spec.get(key) or []):
            scope = variables[:place] if kind == "variable" else []
            yield Part(kind, place, named[text], scope, named["name"])
    for place, validation in enumerate(spec["validations"]):
        for kind, key in VALIDATIONS:
            # a key that is null is absent, as in a cluster
            if validation.get(key) is not None:
                yield Part(kind, place, validation[key], variables)


def evaluated(policy: dict[str, Any]) -> list[Part]:
    """The parts of a policy that is taken: an empty message expression is absent, as in a cluster."""
    return [part for part in parts(policy) if part.text]


def part_of(policy: dict[str, Any], refusal: str) -> Optional[Part]:
    """The part that a refusal of an expression names; none if it is of another kind."""
    words = refusal.split()
    if words[0] != "K6":
        return None
    return next(one for one in parts(policy) if one.kind == words[1] and one.place == int(words[2]))


def needed(scope: list[Any], text: str) -> list[Any]:
    """The variables in scope that the text may name, with those that these may name."""
    words = set(WORD.findall(text))
    found: list[Any] = []
    for variable in reversed(scope):
        if variable["name"] in words:
            words |= set(WORD.findall(variable["expression"]))
            found.insert(0, variable)
    return found


def asking(scope: list[Any], text: str) -> dict[str, Any]:
    """A policy whose one validation is this expression, of whatever type."""
    return whole({"variables": needed(scope, text), "validations": [{"expression": f"dyn(\n{text}\n)"}]})


def as_variable(scope: Any, text: str) -> Any:
    """A policy whose last variable is this expression."""
    used = {variable["name"] for variable in scope}
    name = next(name for name in (f"piece{number}" for number in range(len(used) + 1)) if name not in used)
    variables = [*needed(scope, text), {"name": name, "expression": text}]
    return whole({"variables": variables, "validations": [{"expression": "true"}]})


def alone(policy: dict[str, Any], place: int, **changed: Any) -> dict[str, Any]:
    """The policy with one of its validations alone, which is changed so, and without conditions."""
    spec = {key: value for key, value in policy["spec"].items() if key != "matchConditions"}
    return whole({**spec, "validations": [{**policy["spec"]["validations"][place], **changed}]})


# the place in a frame of a macro over an optional value
OF_OPTIONAL = "value"


def bound(text: str, frames: list[Any]) -> str:
    """The text with each iteration name standing for an item: `frames` are (range, names, place), outermost first.

    A place that is None stands for any item, of which only the type is asked. With two names it is the first of them, an
    int or a text literal; of an optional value it is `OF_OPTIONAL`.
    """
    for range_text, names, place in reversed(frames):
        text = in_frame(f"(\n{range_text}\n)", names.split(), place, f"\n{text}\n")
    return text


def in_frame(range_text: str, names: list[Any], place: Any, text: str) -> str:
    """A text with the names of one frame."""
    if place is None:
        for name in reversed(names):
            text = f"[null].map({name},{text})[0]"
        return text
    if len(names) > 1:
        key, value = names
        return f"[{range_text}[{place}]].map({value}, [{place}].map({key},{text})[0])[0]"
    name = names[0]
    item = f"{range_text}.value()" if place == OF_OPTIONAL else f"{range_text}.map({name}, {name})[{place}]"
    return f"[{item}].map({name},{text})[0]"
