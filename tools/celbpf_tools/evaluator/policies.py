"""A policy: its document, its expressions, and what refuses it."""

from dataclasses import dataclass, field
from typing import Any

from . import documents, grammar, macros, measures, types
from .refused import Refused
from .tokens import NAME

API_VERSION = "admissionregistration.k8s.io/v1"
KIND = "ValidatingAdmissionPolicy"
REASONS = {"Unauthorized": 401, "Forbidden": 403, "Invalid": 422, "RequestEntityTooLarge": 413}
MOST_PARTS = 64
TEXT, LIST, OBJECT = str, list, dict
# for each place in a document its keys, with their types and whether they have to stand
WHOLE = {
    "apiVersion": (TEXT, True),
    "kind": (TEXT, True),
    "metadata": (OBJECT, False),
    "spec": (OBJECT, True),
}
SPEC = {
    "validations": (LIST, True),
    "failurePolicy": (TEXT, False),
    "matchConditions": (LIST, False),
    "variables": (LIST, False),
    "matchConstraints": (OBJECT, False),
    "paramKind": (OBJECT, False),
}
NAMED = {"name": (TEXT, True), "expression": (TEXT, True)}
VALIDATION = {
    "expression": (TEXT, True),
    "message": (TEXT, False),
    "messageExpression": (TEXT, False),
    "reason": (TEXT, False),
}


@dataclass
class Policy:
    """A policy as its document says it; names and validations as they stand there."""

    ignores: bool
    variables: list[Any]
    conditions: list[Any]
    validations: list[Any]


@dataclass
class Compiled:
    """A policy that is accepted, with the trees of its expressions; a message's may be None."""

    policy: Policy
    variables: dict[str, Any] = field(default_factory=dict)
    conditions: list[Any] = field(default_factory=list)
    validations: list[Any] = field(default_factory=list)
    messages: list[Any] = field(default_factory=list)


def demand(condition: Any, number: str) -> None:
    if not condition:
        raise Refused(number)


def has_form(value: dict[str, Any], keys: dict[str, Any]) -> bool:
    """Whether an object has only these keys, those that have to stand, and their types."""
    if not isinstance(value, dict) or not value.keys() <= keys.keys():
        return False
    return all(
        isinstance(value[key], wanted) if key in value else not required
        for key, (wanted, required) in keys.items()
    )


def names_allowed(named: list[Any], allowed: Any) -> bool:
    """Whether every name is allowed, and none stands twice."""
    names = [one["name"] for one in named]
    return all(map(allowed, names)) and len(set(names)) == len(names)


def is_identifier(name: str) -> bool:
    """Whether a text is one identifier that may stand free."""
    spelled = NAME.fullmatch(name)
    return spelled is not None and grammar.is_identifier(name)


def spec_allowed(spec: dict[str, Any]) -> bool:
    """Whether a specification is one that a policy may have."""
    if not has_form(spec, SPEC) or spec.get("failurePolicy", "Fail") not in ("Fail", "Ignore"):
        return False
    variables, conditions = spec.get("variables", []), spec.get("matchConditions", [])
    if not all(has_form(one, NAMED) for one in variables + conditions):
        return False
    if not names_allowed(variables, is_identifier) or not names_allowed(conditions, bool):
        return False
    validations = spec["validations"]
    return all(has_form(one, VALIDATION) and one.get("reason", "Invalid") in REASONS for one in validations)


def read(document: bytes) -> Policy:
    """The policy of a document, or the first of K1 to K5 and K8."""
    return of_value(documents.read(document, "K1"))


def of_value(whole: Any) -> Policy:
    """The policy that a value is, or the first of K2 to K5 and K8."""
    demand(isinstance(whole, dict), "K2")
    demand(whole.get("apiVersion") == API_VERSION and whole.get("kind") == KIND, "K2")
    demand(has_form(whole, WHOLE) and spec_allowed(whole["spec"]), "K3")
    spec = whole["spec"]
    lists = [spec.get(key, []) for key in ("variables", "matchConditions", "validations")]
    demand(lists[2], "K4")
    demand(max(map(len, lists)) <= MOST_PARTS, "K5")
    messages = [one.get("message", "") for one in lists[2]]
    demand(not any(mark in message for message in messages for mark in "\n\r"), "K8")
    return Policy(spec.get("failurePolicy") == "Ignore", *lists)


class Compiler:
    """The expressions of a policy as they are taken, one by one."""

    def __init__(self) -> None:
        self.types: dict[str, Any] = {}
        self.depths: dict[str, Any] = {}
        self.nodes = 1
        self.constants: set[Any] = set()

    def take(self, part: str, place: int, text: str, scope: dict[str, Any]) -> tuple[Any, ...]:
        """The tree and type of the next part."""
        try:
            tree = macros.expand(grammar.read(text))
            given = types.check(tree, scope)
            demand(measures.need(tree) <= measures.MOST_NEED, "G1")
            if part == "variable":
                demand(measures.depth(tree, self.depths) <= measures.MOST_DEPTH, "G2")
        except Refused as why:
            raise Refused(f"K6 {part} {place} {why.text}") from why
        self.nodes += 1 + measures.nodes(tree)
        self.constants |= measures.constants(tree)
        return tree, given

    def variable(self, place: int, named: dict[str, Any]) -> Any:
        tree, given = self.take("variable", place, named["expression"], self.types)
        self.types[named["name"]] = given
        self.depths[named["name"]] = measures.depth(tree, self.depths)
        return tree

    def truth(self, part: str, place: int, text: str, scope: dict[str, Any]) -> Any:
        tree, given = self.take(part, place, text, scope)
        demand(given in ("Bool", "Dyn"), "K7")
        return tree

    def message(self, place: int, validation: dict[str, Any]) -> Any:
        if "messageExpression" not in validation:
            return None
        tree, given = self.take("message", place, validation["messageExpression"], self.types)
        demand(given in ("String", "Dyn"), "K9")
        return tree

    def end(self) -> None:
        demand(measures.SLOTS_A_NODE * self.nodes <= measures.MOST_SLOTS, "G3")
        demand(measures.bytes_of(self.constants) <= measures.MOST_CONSTANTS, "G4")


def compile_policy(policy: Policy) -> Compiled:
    """The trees of a policy, or the first of K6, K7, K9, G3 and G4."""
    compiler, compiled = Compiler(), Compiled(policy)
    for place, named in enumerate(policy.variables):
        compiled.variables[named["name"]] = compiler.variable(place, named)
    for place, named in enumerate(policy.conditions):
        compiled.conditions.append(compiler.truth("condition", place, named["expression"], {}))
    for place, validation in enumerate(policy.validations):
        text = validation["expression"]
        compiled.validations.append(compiler.truth("validation", place, text, compiler.types))
        compiled.messages.append(compiler.message(place, validation))
    compiler.end()
    return compiled
