"""A policy with a review, and what the program has to answer to it."""

import json
from dataclasses import dataclass
from typing import Any, Optional

from ..evaluator.macros import ROOTS
from ..evaluator.refused import Refused
from ..evaluator.review import answer
from ..evaluator.verdicts import message_text
from .policies import spec_of
from .reviews import Documents
from .spoils import POLICIES, REVIEWS, cut, spoiled

POLICY = {"apiVersion": "admissionregistration.k8s.io/v1", "kind": "ValidatingAdmissionPolicy"}
REVIEW = {"apiVersion": "admission.k8s.io/v1", "kind": "AdmissionReview"}
OUT_OF_STEPS = (4, "", "celbpf: N4\n")
STOPPED = (4, "", "celbpf: N5\n")


@dataclass
class Case:
    """The documents as bytes; namespace and params may be None."""

    policy: bytes
    review: bytes
    namespace: Optional[bytes] = None
    params: Optional[bytes] = None


def document(numbers: Any, value: dict[str, Any]) -> bytes:
    """A document that says this, compact or laid out, with escapes or without."""
    indent = 2 if numbers.one_in(4) else None
    return cut(numbers, json.dumps(value, indent=indent, ensure_ascii=numbers.one_in(2)).encode())


def case_of(numbers: Any) -> Case:
    """The next case."""
    policy = spoiled(numbers, POLICIES, {**POLICY, "spec": spec_of(numbers, ROOTS)})
    request, namespace, params = Documents(numbers).review()
    review = spoiled(numbers, REVIEWS, {**REVIEW, "request": request})
    beside = [None if one is None else document(numbers, one) for one in (namespace, params)]
    return Case(document(numbers, policy), document(numbers, review), *beside)


@dataclass
class Outcome:
    """What came of a case: what was wanted, how many steps it took, and where the program differs."""

    answer: Any = None
    refusal: str = ""
    steps: int = 0
    differences: tuple[Any, ...] = ()


def wanted(case: Case) -> tuple[Any, ...]:
    """The evaluator's answer to a case, or the refusal's text."""
    try:
        return answer(case.policy, case.review, case.namespace, case.params), ""
    except Refused as why:
        return None, why.text


def compared(name: str, found: Any, *allowed: Any) -> list[Any]:
    """Nothing, where what was found is one of what is allowed; else a line that says so."""
    return [] if found in allowed else [f"{name}: {found!r} and not {allowed[0]!r}"]


def verdict_lines(verdict: Any) -> list[Any]:
    """What `w` says of a verdict, but for where the messages' texts stand."""
    lines = [f"verdict {verdict.outcome} {len(verdict.denials)}"]
    lines += [f"validation {place} {result}" for place, result in enumerate(verdict.results) if result]
    return lines + [f"message {place}" for place, value in verdict.denials if message_text(value) is not None]


def without_places(lines: list[Any]) -> list[Any]:
    """Lines of `w` without the places of the messages' texts."""
    return [line.rsplit(" ", 1)[0] if line.startswith("message") else line for line in lines]


def look_at_steps(program: Any, words: list[Any], given: Any, answered: tuple[Any, ...]) -> tuple[Any, ...]:
    """How many steps the program takes, and where what it shows at its end, or a step before, differs."""
    move, shown = program.session(words, given.costs.steps)
    end = f"exited 0x{given.verdict.outcome:016x}"
    if not move.endswith(end):
        return 0, [f"session: {move!r} and not {end!r}"]
    steps = int(move.split()[1])
    differences = compared("w", without_places(shown), verdict_lines(given.verdict))
    differences += compared("as many steps", program.review(words, steps), answered)
    differences += compared("a step fewer", program.review(words, steps - 1), OUT_OF_STEPS)
    return steps, differences


def outcome_of(program: Any, case: Case) -> Outcome:
    """Runs the program on a case and compares it with the evaluator."""
    given, refusal = wanted(case)
    words = program.hold(case)
    if given is None:
        differences = compared("refusal", program.review(words, 0), (3, "", f"celbpf: {refusal}\n"))
        return Outcome(refusal=refusal, differences=tuple(differences))
    answered = (0 if given.allowed else 1, given.response + "\n", "")
    differences = compared("no step", program.review(words, 0), OUT_OF_STEPS)
    found = program.review(words, given.costs.steps)
    if not given.is_within and found == STOPPED:
        return Outcome(given, differences=tuple(differences))
    differences += compared("review", found, answered)
    steps, others = look_at_steps(program, words, given, answered)
    return Outcome(given, steps=steps, differences=(*differences, *others))
