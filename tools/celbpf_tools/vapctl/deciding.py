"""The outcome of each object, with all findings.

The outcome is what the gatekeeper answers under the state. Its answer to a denial has the first finding alone. All of
them are the warnings of its answer under a state whose bindings warn instead. If an answer there still has no list of
all findings, since a binding is not configured or a policy does not decide, each binding is asked alone.
"""

import json
import re
from collections.abc import Container
from dataclasses import replace
from pathlib import Path
from typing import Any, Iterator, Optional

from ..asking.gatekeeper import REFUSAL, without_file
from ..manifests.kinds import Resources
from .cluster import BINDING, EVERYTHING, POLICY, NoState, State, is_any, is_of, key_of, policy_of, spec_of
from .gate import Answer, Gate
from .inputs import Thing
from .refusals import NO_KIND, why_blocked
from .requests import why_no_ints
from .results import ALLOWED, AUDIT, DENIED, DENY, ERROR, UNDECIDED, WARN, Finding
from .stored_fields import field_refusals

WARNING = re.compile(r"Validation failed for ValidatingAdmissionPolicy '(.*?)' with binding '(.*?)': (.*)", re.DOTALL)
DENIAL = re.compile(r"is forbidden: ValidatingAdmissionPolicy '(.*?)'(?: with binding '(.*?)')? denied request: (.*)", re.DOTALL)
LISTED = re.compile(r"gatekeeper: policy (\S+), bindings.*?(?:, blocked (.*))?$")
WARNS = ["Warn"]
# the outcome, the message and the findings of a review
Decided = tuple[str, str, list[Finding]]
# by the place of a review what is found, and the review with what is found so far
Found = dict[int, list[Finding]]
Unlisted = dict[int, tuple[str, list[Finding]]]
# why a state is refused, by the code at the start of the line
CAUSES = {
    "C1": "an object of the state has a number or a text that JSON does not have",
    "C2": "no name, another type of namespace or labels, or a namespace where the kind has none",
    "C4": "the state has no Namespace",
    "C5": "an API server does not store this binding",
    "C6": "an API server does not store this policy",
}
# the fields of a policy's specification that may be the cause, each with a value that is stored, or none
REPAIRS: dict[str, Any] = {"matchConstraints": {"resourceRules": [EVERYTHING]}, "paramKind": None}


class Deciding:
    """A gatekeeper and a state, with the files of the state and of its changes in a folder."""

    def __init__(self, gate: Gate, state: State, folder: Path):
        self.gate, self.state, self.folder = gate, state, folder
        self.actions = state.actions()
        self.policies: list[str] = []
        # by policy why it is not decided
        self.blocked: dict[str, str] = {}
        # what decides without the bindings of some of these
        self.parts: dict[frozenset[str], Deciding] = {}
        # what decides of resources that no API server converts
        self.exact: Optional[Deciding] = None
        self.file = state.written(folder / "state.json")
        self.start()

    def start(self) -> None:
        """Reads which policies are bound, and which of them are refused."""
        ran = self.gate.started(self.file)
        lines = ran.stderr.splitlines()
        if ran.returncode:
            raise NoState(self.faults(lines[-1] if lines else f"the gatekeeper ended with status {ran.returncode}"))
        for found in filter(None, map(LISTED.match, lines)):
            self.policies.append(found[1])
            if found[2]:
                self.blocked[found[1]] = why_blocked(found[2], self.no_params(found[1]))

    def no_params(self, policy: str) -> str:
        """What is to be given if the kind of a policy's params is not known: of a kind that is built in no definition."""
        kinds = [spec_of(one).get("paramKind") for one in self.state.policies if one.name == policy]
        kind = kinds[0] if kinds and isinstance(kinds[0], dict) else {}
        known = {"apiVersion": str(kind.get("apiVersion")), "kind": str(kind.get("kind"))}
        if Resources().of(known) is None or any(is_any(one, [kind]) for one in self.state.things):
            return NO_KIND
        what = f"{kind['kind']}, the kind of its params"
        return f"no {what}, is among the inputs: give --params" if self.state.is_given else f"the state has no {what}"

    def faults(self, line: str) -> list[str]:
        """Why the state is refused, with the place of the object that the line names."""
        code, _, what = without_file(line, [self.file]).removeprefix(REFUSAL).partition(" ")
        name, _, part = what.partition(": ")
        why = CAUSES.get(code, line)
        if code == "C2" and name.isdigit() and int(name) < len(self.state.things):
            thing = self.state.things[int(name)]
            return [f"{thing.place}: {thing.title}: {why} ({code})"]
        for thing in {"C5": self.state.bindings, "C6": self.state.policies}.get(code, ()):
            if thing.name == name:
                found = [f"{one.key}: {one.meaning}" for one in field_refusals(thing, True)]
                told = found or [f"{why}: {part or self.cause(thing)}"]
                return [f"{thing.place}: {thing.title}: {one} ({code})" for one in told]
        return [f"{why} ({code})" if code in CAUSES else line]

    def cause(self, thing: Thing) -> str:
        """The field without which a policy is stored, or all that may be, if it is not one alone."""
        found = [key for key, value in REPAIRS.items() if self.is_stored(repaired(thing, key, value))]
        return f"spec.{found[0]}" if len(found) == 1 else f"several of {', '.join(REPAIRS)}"

    def is_stored(self, thing: Thing) -> bool:
        """Whether the gatekeeper takes a state in which a policy is changed so."""
        kept = [one for one in self.state.things if key_of(one) != key_of(thing)]
        return not self.gate.started(State([*kept, thing]).written(self.folder / "repaired.json")).returncode

    def decide(self, lines: list[str], are_alone: list[bool]) -> Iterator[Decided]:
        """The outcome, the message and the findings of each review. `are_alone` tells of each whether its resource is alone: then
        rules that name another group or version do not match it, and the gatekeeper need not refuse to tell (N6).
        """
        decided: dict[int, Decided] = {}
        for is_alone in sorted(set(are_alone)):
            places = [place for place, one in enumerate(are_alone) if one == is_alone]
            part = self.of_alone() if is_alone else self
            decided.update(zip(places, part.met([lines[place] for place in places])))
        yield from (decided[place] for place in range(len(lines)))

    def of_alone(self) -> "Deciding":
        """What decides under the state in which no constraints match by another group or version."""
        if self.exact is None:
            folder = self.folder / "exact"
            folder.mkdir()
            self.exact = Deciding(self.gate, replace(self.state, things=list(map(exact, self.state.things))), folder)
        return self.exact

    def met(self, lines: list[str]) -> Iterator[Decided]:
        """What is decided of each review. The gatekeeper does not decide what the constraints of a policy match that it refuses; a
        cluster asks the policy only if one of its bindings matches too.
        """
        groups: dict[frozenset[str], list[int]] = {}
        for place, names in enumerate(self.unmet(lines)):
            groups.setdefault(names, []).append(place)
        decided: dict[int, Decided] = {}
        for names, places in groups.items():
            part = self.without(names) if names else self
            decided.update(zip(places, part.decided([lines[place] for place in places])))
        yield from (decided[place] for place in range(len(lines)))

    def unmet(self, lines: list[str]) -> list[frozenset[str]]:
        """Of each review the policies that are refused and of which no binding matches; none if that is not known."""
        if not self.blocked:
            return [frozenset()] * len(lines)
        file = stand_ins(self.state, self.blocked).written(self.folder / "stand-ins.json")
        return [self.unmet_by(answer) for answer in self.gate.answers(file, lines)]

    def unmet_by(self, answer: Answer) -> frozenset[str]:
        """The policies of which no stand-in has found something."""
        met = {match[1] for match in map(WARNING.fullmatch, answer.warnings) if match}
        return frozenset() if answer.refused or not answer.allowed else frozenset(self.blocked) - met

    def without(self, names: frozenset[str]) -> "Deciding":
        """What decides under the state in which these policies have no bindings."""
        if names not in self.parts:
            folder = self.folder / f"without{len(self.parts)}"
            folder.mkdir()
            things = [one for one in self.state.things if not is_of(one, BINDING) or policy_of(one) not in names]
            self.parts[names] = Deciding(self.gate, replace(self.state, things=things), folder)
        return self.parts[names]

    def decided(self, lines: list[str]) -> Iterator[Decided]:
        """The outcome, the message and the findings of each review, as the gatekeeper decides."""
        answers = self.gate.answers(self.file, lines)
        found = self.found([(place, lines[place]) for place, one in enumerate(answers) if has_more(one)])
        for place, answer in enumerate(answers):
            if answer.refused:
                yield UNDECIDED, "", found.get(place) or [self.error(answer, lines[place])]
            elif answer.allowed:
                yield ALLOWED, "", found.get(place, [])
            else:
                findings = found.get(place, [])
                own = self.of_denial(answer)
                known = any((one.policy, one.message) == (own.policy, own.message) for one in findings)
                yield DENIED, answer.message, findings if known else [own, *findings]

    def found(self, asked: list[tuple[int, str]]) -> Found:
        """By the place of a review all findings."""
        if not asked:
            return {}
        file = self.state.written(self.folder / "warning.json", WARNS)
        answers = self.gate.answers(file, [line for _, line in asked])
        found = {place: self.of_warnings(answer) for (place, _), answer in zip(asked, answers) if answer.allowed}
        unlisted = {place: (line, self.of_warnings(answer)) for (place, line), answer in zip(asked, answers) if not answer.allowed}
        return {**found, **self.one_by_one(unlisted)}

    def one_by_one(self, asked: Unlisted) -> Found:
        """By the place of a review what each binding finds alone, and then what else was found."""
        found: Found = {place: [] for place in asked}
        bindings = sorted(self.state.bindings, key=lambda one: (policy_of(one), one.name))
        for binding in bindings if asked else ():
            if policy_of(binding) in self.policies:
                self.add_of(binding, asked, found)
        for place, (_, known) in asked.items():
            found[place] += [one for one in known if one not in found[place]]
        return found

    def add_of(self, binding: Thing, asked: Unlisted, found: Found) -> None:
        """Adds what is found by one binding alone."""
        file = self.state.written(self.folder / "alone.json", WARNS, binding)
        answers = self.gate.answers(file, [line for line, _ in asked.values()])
        for (place, (line, _)), answer in zip(asked.items(), answers):
            new = self.of_warnings(answer)
            if answer.refused:
                # a policy that is blocked is so under each binding
                new.append(self.error(answer, line, "" if answer.policy in self.blocked else binding.name))
            elif not answer.allowed:
                new.append(self.of_denial(answer))
            found[place] += [one for one in new if one not in found[place]]

    def of_warnings(self, answer: Answer) -> list[Finding]:
        """The findings in the warnings of an answer."""
        found = []
        for text in answer.warnings:
            match = WARNING.fullmatch(text)
            policy, binding, message = match.groups() if match else ("", "", text)
            found.append(Finding(policy, self.shown(policy, binding), self.action(policy, binding), message, self.audits(policy, binding)))
        return found

    def of_denial(self, answer: Answer) -> Finding:
        """The finding in the message of a denial."""
        match = DENIAL.search(answer.message)
        policy, binding, message = match.groups() if match else ("", "", answer.message)
        return Finding(policy, self.shown(policy, binding or ""), DENY, message, self.audits(policy, binding or ""))

    def error(self, answer: Answer, line: str, binding: str = "") -> Finding:
        """The policy that does not decide, and why."""
        why = self.blocked.get(answer.policy) if answer.refused in ("C7", "C8") else None
        if answer.refused == "N2":
            why = why_no_ints(json.loads(line)["request"])
        return Finding(answer.policy, self.shown(answer.policy, binding), ERROR, why or answer.why_refused)

    def shown(self, policy: str, binding: str) -> str:
        """The name of a binding, empty if it was made here."""
        return "" if policy in self.state.made else binding

    def audits(self, policy: str, binding: str) -> bool:
        """Whether a binding writes the audit log."""
        return "Audit" in self.actions.get((policy, binding), [])

    def action(self, policy: str, binding: str) -> str:
        """The most severe of a binding's actions."""
        given = self.actions.get((policy, binding), [])
        return DENY if "Deny" in given else WARN if "Warn" in given else AUDIT if "Audit" in given else DENY


def stand_ins(state: State, names: Container[str]) -> State:
    """A state with these policies alone, which find something in each request that their constraints and a binding match."""
    things = [one for one in state.things if not is_of(one, POLICY) and not is_of(one, BINDING)]
    for one in (*state.policies, *state.bindings):
        spec = spec_of(one)
        if is_of(one, POLICY) and one.name in names:
            rules, finds = spec.get("matchConstraints"), [{"expression": "false", "message": "met"}]
            things.append(Thing({**one.value, "spec": {"matchConstraints": rules, "validations": finds}}, one.place))
        elif is_of(one, BINDING) and policy_of(one) in names:
            kept = {key: spec[key] for key in ("policyName", "matchResources") if key in spec}
            things.append(Thing({**one.value, "spec": {**kept, "validationActions": WARNS}}, one.place))
    return State(things)


def exact(thing: Thing) -> Thing:
    """A policy or a binding whose rules match the resource as it is asked for alone; anything else is unchanged."""
    key = "matchConstraints" if is_of(thing, POLICY) else "matchResources" if is_of(thing, BINDING) else ""
    given = spec_of(thing).get(key)
    return repaired(thing, key, {**given, "matchPolicy": "Exact"}) if isinstance(given, dict) else thing


def repaired(thing: Thing, key: str, value: Any) -> Thing:
    """An object with another value in its specification, or without one."""
    spec = {**spec_of(thing), key: value}
    return Thing({**thing.value, "spec": {name: one for name, one in spec.items() if one is not None}}, thing.place)


def has_more(answer: Answer) -> bool:
    """Whether there may be more findings than an answer has."""
    return bool(answer.policy) if answer.refused else not answer.is_plain
