"""Why a whole cluster decides a request as it does: which policies match, their bindings and params, and what they find."""

import contextlib
import io
import json
from collections.abc import Iterator
from dataclasses import dataclass
from pathlib import Path
from typing import Any, Optional

from ..asking import policies
from ..asking.program import NotAnswered, Program
from ..asking.translating import Translating
from ..manifests.kinds import Resources
from . import matching, telling
from .cluster import policy_of, spec_of
from .deciding import Deciding
from .inputs import Thing
from .one_decision import policy_text
from .probes import EVERYTHING, MATCHED, Probe, Probes
from .refusals import words_of_refusal
from .results import ERROR, Finding

ACTIONS = {"Deny": "denies", "Warn": "warns", "Audit": "audits"}
OUTCOMES = {"admitted": "allows", "skipped": "is skipped, since a match condition is not true"}
NAMESPACE = {"group": "", "version": "v1", "kind": "Namespace"}
# why no policy is shown
ENDED = "no policy is evaluated"
EXEMPT = "no policy is asked about this resource"
REJECTED = "its match conditions are not decided, so it"


@dataclass
class Bound:
    """A policy under one of its bindings."""

    policy: Thing
    binding: Thing
    is_made: bool

    @property
    def title(self) -> str:
        return f"policy {self.policy.name}" + (f", binding {self.binding.name}" if not self.is_made else "")

    @property
    def actions(self) -> str:
        """What the binding does with a finding."""
        given = spec_of(self.binding).get("validationActions") or ()
        return " and ".join(ACTIONS.get(str(one), str(one)) for one in given)

    @property
    def resources(self) -> dict[str, Any]:
        """The binding's own constraints."""
        found = spec_of(self.binding).get("matchResources")
        return found if isinstance(found, dict) else {}


class ClusterWhy:
    """The reason of one decision. `only` is the one policy that is shown, if there is one."""

    def __init__(self, deciding: Deciding, line: str, program: Path, only: Optional[str], resources: Resources):
        self.deciding, self.program, self.folder = deciding, program, deciding.folder
        self.state, self.only = deciding.state, only
        self.request: dict[str, Any] = json.loads(line)["request"]
        self.asked = matching.Asked(self.request, self.state)
        self.probes = Probes(deciding.gate, self.state, self.folder, line)
        asked = self.request.get("resource")
        is_alone = isinstance(asked, dict) and resources.is_alone(str(asked.get("group") or ""), str(asked.get("resource")))
        self.outcome, self.message, self.findings = next(deciding.decide([line], [is_alone]))
        (self.folder / "review.json").write_text(line, encoding="utf-8", errors="surrogatepass")

    def lines(self) -> Iterator[str]:
        """What is printed."""
        yield self.outcome
        if self.message:
            yield f"    {self.message}"
        if not self.probes.alone(Probe(EVERYTHING)).is_matched:
            yield from self.unevaluated()
            return
        shown = [one for one in self.bound() if self.only in (None, one.policy.name)]
        matched, out = self.divided(shown)
        for bound in matched:
            yield from self.of_bound(bound)
        yield from listed("these do not match:", out)
        names = {one.policy.name for one in self.bound()}
        yield from listed("these have no binding, and decide nothing:", [
            one.name for one in self.state.policies if one.name not in names and self.only in (None, one.name)
        ])

    def unevaluated(self) -> Iterator[str]:
        """What is printed if no policy can be evaluated, or none is asked."""
        for one in self.findings:
            if one.policy:
                yield f"policy {one.policy}: {told_of(one)}"
            elif one.message not in self.message:
                yield f"    {one.message}"
        yield ENDED if self.findings else EXEMPT

    def bound(self) -> list[Bound]:
        """The policies under each of their bindings, in the order in which they are asked."""
        known = {policy.name: policy for policy in self.state.policies}
        found = [Bound(known[policy_of(one)], one, policy_of(one) in self.state.made)
                 for one in self.state.bindings if policy_of(one) in known]
        return sorted(found, key=lambda one: (one.policy.name, one.binding.name))

    def divided(self, bound: list[Bound]) -> tuple[list[Bound], list[str]]:
        """Those that match, or do not decide, and for each other why it does not match."""
        asked = [one for one in bound if not self.error_of(one)]
        constraints = [(one.policy.name, spec_of(one.policy).get("matchConstraints") or {}) for one in asked]
        own = [(one.title.removeprefix("policy "), one.resources) for one in asked]
        found = self.probes.found([matching.whole(given) for _, given in (*constraints, *own)])
        fits = [one.is_matched for one in found]
        by_policy, by_binding = fits[: len(asked)], fits[len(asked) :]
        kept = [id(one) for one, first, second in zip(asked, by_policy, by_binding) if first and second]
        out = dict(pair for pair, fit in zip(constraints, by_policy) if not fit)
        out |= dict(pair for pair, first, second in zip(own, by_policy, by_binding) if first and not second)
        return [one for one in bound if id(one) in kept or self.error_of(one)], list(self.why_not(out))

    def why_not(self, constraints: dict[str, dict[str, Any]]) -> Iterator[str]:
        """Why each of these constraints does not match."""
        parts = {title: matching.parts_of(given, self.asked) for title, given in constraints.items()}
        each = [part for one in parts.values() for top in one for part in top.all()]
        found = dict(zip(map(id, each), self.probes.found([part.probe for part in each])))
        for title, one in parts.items():
            yield f"{title}: {'. '.join(matching.told(one, found))}"

    def error_of(self, bound: Bound) -> Optional[Finding]:
        """Why a policy does not decide under a binding, or is not configured."""
        name = "" if bound.is_made else bound.binding.name
        for one in self.findings:
            is_own = one.policy == bound.policy.name and one.binding in ("", name)
            if is_own and (one.action == ERROR or one.message.startswith("failed to configure")):
                return one
        return None

    def of_bound(self, bound: Bound) -> Iterator[str]:
        """What a policy finds under a binding, with each of its params."""
        if error := self.error_of(bound):
            yield f"{bound.title}: {told_of(error)}"
            return
        params = self.params_of(bound)
        if not params:
            yield f"{bound.title}: there are no params, and so it allows"
        for one in params:
            yield from self.of_evaluation(bound, one)

    def params_of(self, bound: Bound) -> list[Optional[Thing]]:
        """The params with which a policy is evaluated; `None` if it has none."""
        kind, reference = spec_of(bound.policy).get("paramKind"), spec_of(bound.binding).get("paramRef")
        if not kind or not reference:
            return [None]
        named = self.probes.alone(Probe(EVERYTHING, kind, reference)).messages
        known = {f"{one.namespace}/{one.name}" if one.namespace else one.name: one for one in self.state.things
                 if (one.api_version, one.kind) == (kind["apiVersion"], kind["kind"])}
        return [known.get(name) for name in named if name != MATCHED]

    def of_evaluation(self, bound: Bound, params: Optional[Thing]) -> Iterator[str]:
        """What one evaluation finds, with the values of its expressions unless it allows."""
        title = bound.title + (f", params {params.title}" if params else "")
        words = ["--review", str(self.folder / "review.json")]
        for key, value in (("namespace", self.namespace_object()), ("params", params and params.value)):
            if value is not None:
                words += [f"--{key}", self.written(key, value)]
        program = Translating(self.program, self.deciding.gate.program, str(self.folder), words)
        file = self.folder / "one.json"
        file.write_text(policy_text(bound.policy), encoding="utf-8", errors="surrogatepass")
        try:
            outcome, shown = told(program, str(file))
        except NotAnswered as refused:
            yield f"{title}: is not decided: {words_of_refusal(refused.line)}"
            return
        rejected = f"{REJECTED} {bound.actions}"
        yield f"{title}: {OUTCOMES.get(outcome, rejected if outcome == 'rejected' else bound.actions)}"
        if outcome != "admitted" or self.only:
            yield from (f"    {line}" for line in shown)

    def written(self, name: str, value: Any) -> str:
        """The file of a document."""
        path = self.folder / f"{name}.json"
        path.write_text(json.dumps(value), encoding="utf-8")
        return str(path)

    def namespace_object(self) -> Optional[dict[str, Any]]:
        """The Namespace that expressions see; a request for a Namespace has none."""
        return None if self.request.get("kind") == NAMESPACE else self.asked.namespace


def listed(head: str, lines: list[str]) -> Iterator[str]:
    """Lines below a head, if there are any."""
    if lines:
        yield head
        yield from (f"    {line}" for line in lines)


def told_of(finding: Finding) -> str:
    """A finding of a policy that is not evaluated."""
    return f"{'is not decided: ' if finding.action == ERROR else 'denies: '}{finding.message}"


def told(program: Program, file: str) -> tuple[str, list[str]]:
    """The outcome of an evaluation, and its parts with their values."""
    said = io.StringIO()
    with contextlib.redirect_stdout(said):
        telling.tell(program, policies.read(file), program.verdict(file))
    outcome, *lines = said.getvalue().splitlines()
    return outcome, lines
