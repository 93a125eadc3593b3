"""A policy as a cluster stores it, with wide expressions: its verdict, and what its annotations collect."""

from dataclasses import dataclass, field
from functools import partial
from typing import Any, Callable

from ..evaluator import policies, verdicts
from ..evaluator.costs import Costs
from ..evaluator.policies import demand, has_form
from ..evaluator.refused import Refused
from ..evaluator.values import ERROR, in_byte_order
from .cases import Variables
from .expression import Scope, taken, variable
from .meaning import Meaning
from .refused import Wrong
from .texts import BLANKS

VERSIONS = [f"admissionregistration.k8s.io/{version}" for version in ("v1", "v1beta1", "v1alpha1")]
WHOLE: dict[str, Any] = {**policies.WHOLE, "status": (dict, False)}
SPEC: dict[str, Any] = {**policies.SPEC, "validations": (list, False), "auditAnnotations": (list, False)}
ANNOTATION = {"key": (str, True), "valueExpression": (str, True)}
# the keys whose texts are trimmed
TEXTS = ("expression", "message", "messageExpression", "valueExpression")
MOST_BYTES = 10_240


@dataclass
class WidePolicy:
    """A policy that is accepted, with the trees of its annotations by their place."""

    compiled: policies.Compiled
    annotations: list[Any] = field(default_factory=list)
    values: list[Any] = field(default_factory=list)


def without_nulls(value: Any) -> Any:
    return {key: one for key, one in value.items() if one is not None} if isinstance(value, dict) else value


def entries(spec: dict[str, Any], key: str) -> list[Any]:
    """The entries of a list, without nulls and empty message expressions, and with trimmed texts."""
    made = [without_nulls(one) for one in spec.get(key, [])]
    for one in made:
        if isinstance(one, dict):
            if one.get("messageExpression") == "":
                del one["messageExpression"]
            one.update({name: one[name].strip(BLANKS) for name in TEXTS if isinstance(one.get(name), str)})
    return made


def spec_of(document: Any) -> dict[str, Any]:
    """The specification of a policy, or the first of K2 to K5 and K8."""
    whole = without_nulls(document)
    demand(isinstance(whole, dict) and whole.get("kind") == policies.KIND, "K2")
    demand(whole.get("apiVersion") in VERSIONS, "K2")
    spec = without_nulls(whole.get("spec"))
    demand(has_form({**whole, "spec": spec}, WHOLE) and has_form(spec, SPEC), "K3")
    lists = ("variables", "matchConditions", "validations", "auditAnnotations")
    spec = {**spec, **{key: entries(spec, key) for key in lists}}
    annotations = spec["auditAnnotations"]
    known = {key: value for key, value in spec.items() if key != "auditAnnotations"}
    demand(policies.spec_allowed(known) and all(has_form(one, ANNOTATION) for one in annotations), "K3")
    demand(spec["validations"] or annotations, "K4")
    demand(max(len(spec[key]) for key in lists) <= policies.MOST_PARTS, "K5")
    messages = [one.get("message", "") for one in spec["validations"]]
    demand(not any(mark in message for message in messages for mark in "\n\r"), "K8")
    return spec


def part_of(part: str, place: int, read_part: Callable[..., Any]) -> Any:
    """The tree of a part, or its refusal: K7 and K9 alone, others as K6 with the part."""
    try:
        return read_part()
    except Wrong as why:
        raise Refused(why.code if why.code in ("K7", "K9") else f"K6 {part} {place} {why.text}") from why


def read(document: Any) -> WidePolicy:
    """The policy that a document is, or its first refusal, in the order of the parts here."""
    spec, scope = spec_of(document), Scope()
    named, conditions, validations = spec["variables"], spec["matchConditions"], spec["validations"]
    ignores = spec.get("failurePolicy") == "Ignore"
    made = policies.Compiled(policies.Policy(ignores, named, conditions, validations))

    def tree(part: str, place: int, text: str, given: Scope, kind: str) -> Any:
        return part_of(part, place, partial(taken, text, given, kind))

    for place, one in enumerate(named):
        made.variables[one["name"]] = part_of("variable", place, partial(variable, **one, scope=scope))
    made.conditions = [
        tree("condition", place, one["expression"], Scope(), "condition") for place, one in enumerate(conditions)
    ]
    made.validations = [
        tree("validation", place, one["expression"], scope, "condition") for place, one in enumerate(validations)
    ]
    made.messages = [
        tree("message", place, one["messageExpression"], scope, "message") if "messageExpression" in one else None
        for place, one in enumerate(validations)
    ]
    values = [
        tree("annotation", place, one["valueExpression"], scope, "annotation")
        for place, one in enumerate(spec["auditAnnotations"])
    ]
    return WidePolicy(made, spec["auditAnnotations"], values)


def meaning_over(policy: WidePolicy, roots: dict[str, Any]) -> Meaning:
    lazy = Variables(policy.compiled.variables)
    lazy.meaning = Meaning(roots, lazy)
    return lazy.meaning


def gate(policy: WidePolicy, roots: dict[str, Any]) -> Any:
    """The outcome that the conditions give, or None if they hold; they have no namespace."""
    meaning = Meaning({**roots, "namespaceObject": None}, {})
    found = [verdicts.result_of(meaning.of(tree)) for tree in policy.compiled.conditions]
    if verdicts.FALSE in found:
        return verdicts.SKIPPED
    if verdicts.NO_BOOL in found:
        return verdicts.SKIPPED if policy.compiled.policy.ignores else verdicts.REJECTED
    return None


def verdict_of(policy: WidePolicy, roots: dict[str, Any]) -> verdicts.Verdict:
    """What a policy decides over these roots, without its annotations."""
    outcome, meaning = gate(policy, roots), meaning_over(policy, roots)
    if outcome is not None:
        return verdicts.Verdict(Costs(), outcome)
    compiled = policy.compiled
    results = [verdicts.result_of(meaning.of(tree)) for tree in compiled.validations]
    denying = (verdicts.FALSE,) if compiled.policy.ignores else (verdicts.FALSE, verdicts.NO_BOOL)
    denials = []
    for place, message in enumerate(compiled.messages):
        if results[place] in denying:
            denials.append((place, None if message is None else meaning.of(message)))
    outcome = verdicts.DENIED if denials else verdicts.ADMITTED
    return verdicts.Verdict(Costs(), outcome, results, denials)


def annotated(policy: WidePolicy, evaluations: list[Any]) -> tuple[Any, ...]:
    """The denials of a policy's annotations over the roots of its evaluations, and the texts by key."""
    denials: list[str] = []
    collected: dict[str, dict[str, Any]] = {}
    for roots in evaluations:
        if gate(policy, roots) is not None:
            continue
        meaning = meaning_over(policy, roots)
        for one, tree in zip(policy.annotations, policy.values):
            value = meaning.of(tree)
            if value is ERROR and not policy.compiled.policy.ignores:
                denials.append(f"valueExpression '{one['valueExpression']}' resulted in error")
            elif isinstance(value, str) and published(value):
                # different values, in the order in which they came
                collected.setdefault(one["key"], {})[published(value)] = True
    return denials, {key: ", ".join(collected[key]) for key in in_byte_order(collected)}


def published(text: str) -> str:
    """A text of an annotation as it is published: trimmed, and cut at a code point."""
    return text.strip(BLANKS).encode()[:MOST_BYTES].decode(errors="ignore")
