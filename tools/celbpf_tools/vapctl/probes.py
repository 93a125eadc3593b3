"""Whether a request matches constraints, and which params a binding takes.

Both are asked of the gatekeeper, by small policies of their own. Such a policy has the constraints, finds something in
each request that they match, and is bound to warn, so that one answer has the findings of all of them.
"""

from dataclasses import dataclass, field
from pathlib import Path
from typing import Any, Optional

from .cluster import BINDING, POLICY, VERSION, State, is_of
from .deciding import DENIAL, WARNING, WARNS
from .gate import Answer, Gate
from .inputs import Place, Thing

EVERY_RULE = {"apiGroups": ["*"], "apiVersions": ["*"], "operations": ["*"], "resources": ["*/*"]}
EVERYTHING: dict[str, Any] = {"resourceRules": [EVERY_RULE]}
# names the params; without params it is an error, and the message is that of the validation
PARAMS = "(has(params.metadata.namespace) ? params.metadata.namespace + '/' : '') + params.metadata.name"
MATCHED = "matched"
PLACE = Place("(made here)")


@dataclass
class Probe:
    """The constraints of a small policy, and the kind and the reference of its params."""

    constraints: dict[str, Any]
    kind: Optional[dict[str, Any]] = None
    reference: Optional[dict[str, Any]] = None

    def things(self, name: str, failure: str) -> list[Thing]:
        """The policy and its binding."""
        validation = {"expression": "false", "message": MATCHED, **({"messageExpression": PARAMS} if self.kind else {})}
        spec: dict[str, Any] = {"failurePolicy": failure, "matchConstraints": self.constraints, "validations": [validation]}
        bound: dict[str, Any] = {"policyName": name, "validationActions": WARNS}
        if self.kind:
            spec["paramKind"] = self.kind
        if self.reference:
            bound["paramRef"] = self.reference
        pairs = ((POLICY, spec), (BINDING, bound))
        return [Thing({"apiVersion": VERSION, "kind": kind, "metadata": {"name": name}, "spec": one}, PLACE) for kind, one in pairs]


@dataclass
class Found:
    """What a small policy finds: the names of its params, or `MATCHED`; or why it does not decide."""

    messages: list[str] = field(default_factory=list)
    trouble: str = ""

    @property
    def is_matched(self) -> bool:
        return bool(self.messages)


class Probes:
    """A gatekeeper that is asked about one review, under the state without its policies."""

    def __init__(self, gate: Gate, state: State, folder: Path, line: str):
        self.gate, self.folder, self.line = gate, folder, line
        self.rest = [thing for thing in state.things if not is_of(thing, POLICY) and not is_of(thing, BINDING)]

    def found(self, probes: list[Probe]) -> list[Found]:
        """What each finds. One that does not decide hides the others, and then each is asked alone."""
        answer = self.answer(probes, "Ignore") if probes else Answer()
        if not answer.allowed:
            return [self.alone(probe) for probe in probes]
        found = [Found() for _ in probes]
        for match in filter(None, map(WARNING.fullmatch, answer.warnings)):
            found[int(match[1].removeprefix("p"))].messages.append(match[3])
        return found

    def alone(self, probe: Probe) -> Found:
        """What one finds, or why it does not decide."""
        answer = self.answer([probe], "Fail")
        if answer.refused:
            return Found(trouble=answer.why_refused)
        if not answer.allowed:
            denial = DENIAL.search(answer.message)
            return Found(trouble=denial[3] if denial else answer.message)
        return Found([match[3] for match in filter(None, map(WARNING.fullmatch, answer.warnings))])

    def answer(self, probes: list[Probe], failure: str) -> Answer:
        """The answer under the policies of these."""
        made = [thing for place, probe in enumerate(probes) for thing in probe.things(f"p{place}", failure)]
        file = State([*self.rest, *made]).written(self.folder / "probes.json")
        return self.gate.answers(file, [self.line])[0]
