"""What a gatekeeper answers to a wide expression, beside what is due.

A variable `it` is the expression. For each review a validation compares it with a literal of the value that is
due, in two policies: under Fail and under Ignore. So a value that is due allows, another one denies by both
policies, and an error denies by the first alone.
"""

import json
import re
import subprocess
import tempfile
from pathlib import Path
from typing import Any, Optional

from ..evaluator.values import ERROR
from .calling import NotDecided
from .cases import Case, Due

SECONDS = 60
REFUSED_START = 3
POLICIES = {"fail": "Fail", "ignore": "Ignore"}
# a policy that is too large, also by the literal of a result, and a program that is stopped
TOO_LARGE = re.compile(r"\b(?:G[1-4]|K6 validation [0-9]+ P[56])\b")
# an expression of the wide language that the gatekeeper does not translate yet; for W4 the model may have Y2
NOT_YET = re.compile(r"\bW[45]\b")
STOPPED = ("N4", "N5", "N7", "N8")
PLACE = re.compile(r"\b(?:at|byte) ([0-9]+)")


def literal(value: Any) -> str:
    """A literal of a value; JSON's is one."""
    return json.dumps(value, ensure_ascii=False)


def validation(place: int, result: Any, word: str) -> dict[str, Any]:
    """A validation that a review of this place alone decides."""
    is_value = result is not ERROR and not isinstance(result, NotDecided)
    due = literal(result) if is_value else "null"
    text = f"request.uid != 'u{place}' || dyn(variables.it) == {due}"
    return {"expression": text, "message": word}


def policy(case: Case, due: Due, word: str) -> dict[str, Any]:
    named = {**case.variables, "it": case.text}
    validations = [validation(place, result, word) for place, result in enumerate(due.results)]
    spec = {
        "failurePolicy": POLICIES[word],
        "variables": [{"name": name, "expression": text} for name, text in named.items()],
        # a policy without validations is refused as such, and a variable may be an optional value
        "validations": validations or [{"expression": "dyn(variables.it) == null"}],
    }
    return {
        "apiVersion": "admissionregistration.k8s.io/v1", "kind": "ValidatingAdmissionPolicy",
        "metadata": {"name": word}, "spec": spec,
    }


def review(roots: dict[str, Any]) -> dict[str, Any]:
    request = {**roots["request"], "object": roots["object"], "oldObject": roots["oldObject"]}
    return {"apiVersion": "admission.k8s.io/v1", "kind": "AdmissionReview", "request": request}


def answer(place: int, result: Any) -> str:
    """The line that answers a review with this result."""
    response: dict[str, Any] = {"allowed": result is not ERROR, "uid": f"u{place}"}
    if result is ERROR:
        response["status"] = {"code": 422, "message": "fail", "reason": "Invalid"}
    whole = {"apiVersion": "admission.k8s.io/v1", "kind": "AdmissionReview", "response": response}
    return json.dumps(whole, sort_keys=True, separators=(",", ":"))


def run(program: Any, case: Case, due: Due, options: tuple[Any, ...] = ()) -> subprocess.CompletedProcess[bytes]:
    """How a gatekeeper ends with these options on the policies and reviews of a case."""
    with tempfile.TemporaryDirectory() as folder:
        words: list[Any] = [Path(program).resolve(), *options]
        documents = {f"--policy {word}": policy(case, due, word) for word in POLICIES}
        beside = {"--params params": "params", "--namespace namespace": "namespaceObject"}
        documents.update({name: case.roots[0][root] for name, root in beside.items() if case.roots[0][root]})
        for name, document in documents.items():
            flag, stem = name.split()
            Path(folder, f"{stem}.json").write_text(json.dumps(document), encoding="utf-8")
            words += [flag, f"{stem}.json"]
        lines = "".join(json.dumps(review(roots)) + "\n" for roots in case.roots)
        return subprocess.run(
            words, input=lines.encode(), cwd=folder, capture_output=True, timeout=SECONDS, check=False
        )


def names(line: str, refusal: str) -> bool:
    """Whether a line names the code of a refusal, and its byte if the line has one."""
    words, place = line.replace(":", " ").split(), PLACE.search(line)
    return refusal.split()[0] in words and (not place or refusal.split()[-1] == place[1])


class Compared:
    """Counts of what a gatekeeper with these options answered."""

    def __init__(self, options: tuple[Any, ...] = ()) -> None:
        self.options = options
        self.expressions = self.values = self.errors = self.stopped = self.taken = 0
        self.too_large = self.refused = self.not_yet = 0

    def line(self) -> str:
        return (
            f"{self.expressions} expressions: {self.values} values, {self.errors} errors; "
            f"{self.taken} that API servers refuse, {self.refused} refused, {self.not_yet} not translated yet, "
            f"{self.too_large} too large, {self.stopped} reviews not decided"
        )

    def difference(self, program: Any, case: Case, due: Due) -> Optional[str]:
        """The first difference between a gatekeeper's answers and those that are due, or None."""
        ended = run(program, case, due, self.options)
        errors = ended.stderr.decode()
        is_refused = ended.returncode == REFUSED_START
        if is_refused and any(names(errors, one) for one in (due.refusal, due.behind) if one):
            self.refused += 1
        elif is_refused and NOT_YET.search(errors):
            self.not_yet += 1
        elif is_refused and (due.results or not due.refusal) and TOO_LARGE.search(errors):
            self.too_large += 1
        elif due.refusal and (is_refused or not due.results):
            return errors or f"it is accepted, and {due.refusal} is due"
        else:
            return self.answered(ended, due)
        return None

    def answered(self, ended: subprocess.CompletedProcess[bytes], due: Due) -> Optional[str]:
        """The first difference between the lines of a gatekeeper and those that are due, or None."""
        errors = ended.stderr.decode()
        lines = ended.stdout.decode().splitlines()
        if ended.returncode or errors or len(lines) != len(due.results):
            return f"status {ended.returncode}, {len(lines)} lines, {errors.strip()}"
        for place, (line, result) in enumerate(zip(lines, due.results)):
            stopped = any(line.startswith(f'{{"refused":"{number}"') for number in STOPPED)
            if stopped or isinstance(result, NotDecided):
                self.stopped += 1
            elif line != answer(place, result):
                return f"review {place}: {line}\ndue {answer(place, result)}, since the result is {result!r}"
            else:
                self.errors += result is ERROR
                self.values += result is not ERROR
        self.expressions += 1
        self.taken += bool(due.refusal)
        return None
