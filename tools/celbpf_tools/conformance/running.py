"""Runs cases through `compile` and `review`.

A value is compared by the program: of two validations, `E == W` and `E != W`, exactly the second has to deny, under
each failure policy. An error denies under `Fail` and is passed over under `Ignore`: so `E == E`, which no value makes
false, tells it from every value. The wanted value and those of names are in the review; a name is bound by a macro
over a list of one item.
"""

import json
import os
import subprocess
import tempfile
from concurrent.futures import ThreadPoolExecutor
from pathlib import Path
from typing import Any, Optional

from ..testing.reviews import compact
from .cases import Case
from .profile import bound, wanted

POLICY = {"apiVersion": "admissionregistration.k8s.io/v1", "kind": "ValidatingAdmissionPolicy"}
REVIEW = {"apiVersion": "admission.k8s.io/v1", "kind": "AdmissionReview"}
FAIL, IGNORE = "Fail", "Ignore"
ANOTHER, THE_VALUE, NO_VALUE = "another value", "the wanted value", "no value"
# what each failure policy has to decide: the message of a denial, or an empty text where the request is allowed
OF_VALUE = {FAIL: THE_VALUE, IGNORE: THE_VALUE}
OF_ERROR = {FAIL: NO_VALUE, IGNORE: ""}
# the refusal of an expression that has no type
ILL_TYPED = "K6 validation 0 Y2"


def with_names(expression: str, names: list[Any]) -> str:
    """The expression of type Dyn, with names bound to the values that the review has for them."""
    # the line feed ends a comment that the expression may end with
    whole = f"dyn({expression}\n)"
    for name in reversed(names):
        whole = f"[object.bound.{name}].map({name}, {whole})[0]"
    return whole


def validations(case: Case, names: list[Any]) -> list[dict[str, Any]]:
    """What tests the outcome of a case."""
    whole = with_names(case.expression, names)
    if case.wants_error:
        return [{"expression": f"{whole} == {whole}", "message": NO_VALUE}]
    return [
        {"expression": f"{whole} == object.wanted", "message": ANOTHER},
        {"expression": f"{whole} != object.wanted", "message": THE_VALUE},
    ]


def policy(case: Case, names: list[Any], failure_policy: str) -> dict[str, Any]:
    spec = {"failurePolicy": failure_policy, "validations": validations(case, names)}
    return {**POLICY, "spec": spec}


def review(case: Case, values: dict[str, Any]) -> dict[str, Any]:
    """A review whose object has the values of the names, and the wanted one."""
    seen = {"bound": values} if case.wants_error else {"bound": values, "wanted": wanted(case)}
    return {**REVIEW, "request": {"uid": "1", "object": seen}}


class Runner:
    """The program, with a folder for its files."""

    def __init__(self, program: Path, folder: Path):
        self.program = program
        self.folder = folder

    def write(self, name: str, document: dict[str, Any]) -> str:
        """The path of a file with a document."""
        path = self.folder / name
        path.write_text(compact(document), encoding="utf-8")
        return str(path)

    def run(self, *words: str) -> subprocess.CompletedProcess[str]:
        return subprocess.run([str(self.program), *words], capture_output=True, encoding="utf-8", check=False)

    def compiled(self, document: dict[str, Any]) -> str:
        """What `compile` says to a policy; empty where it makes the image."""
        ran = self.run("compile", self.write("policy.json", document), str(self.folder / "policy.img"))
        return "" if ran.returncode == 0 else ran.stderr.strip().removeprefix("celbpf: ")

    def denial(self, policy_document: dict[str, Any], review_document: dict[str, Any]) -> str:
        """The message of a denial; empty where the request is allowed."""
        files = self.write("policy.json", policy_document), self.write("review.json", review_document)
        ran = self.run("review", "--policy", files[0], "--review", files[1])
        if ran.returncode > 1:
            return f"refused: {ran.stderr.strip().removeprefix('celbpf: ')}"
        response = json.loads(ran.stdout)["response"]
        return "" if response["allowed"] else response["status"]["message"]

    def fault(self, case: Case) -> Optional[str]:
        """How the outcome of a case in the profile differs from the wanted one; `None` if it does not."""
        values = bound(case)
        document = policy(case, list(values), FAIL)
        refusal = self.compiled(document)
        if refusal:
            return f"refused with {refusal}"
        for failure_policy, expected in (OF_ERROR if case.wants_error else OF_VALUE).items():
            said = self.denial(policy(case, list(values), failure_policy), review(case, values))
            if said != expected:
                return f"under {failure_policy} {said or 'allowed'!r} and not {expected or 'allowed'!r}"
        return None

    def fault_of_untyped(self, case: Case) -> Optional[str]:
        """How an ill-typed case is not refused for its types; `None` if it is."""
        said = self.compiled(policy(case, list(bound(case)), FAIL))
        return None if said == ILL_TYPED else f"{said or 'accepted'} and not {ILL_TYPED}"


def fault_of(program: Path, folder: Path, case: Case, is_untyped: bool) -> Optional[str]:
    """How one case is not decided as it wants, in a folder of its own."""
    folder.mkdir()
    runner = Runner(program, folder)
    return runner.fault_of_untyped(case) if is_untyped else runner.fault(case)


def faults(program: Path, cases: list[Case], untyped: list[Case]) -> list[tuple[Case, str]]:
    """The cases that the program does not decide as they want, with how. A run for each processor goes on at a time."""
    asked = [*((case, False) for case in cases), *((case, True) for case in untyped)]
    with tempfile.TemporaryDirectory() as folder, ThreadPoolExecutor(os.cpu_count()) as pool:
        waiting = [pool.submit(fault_of, program, Path(folder, str(at)), *one) for at, one in enumerate(asked)]
        found = [(case, why.result()) for (case, _), why in zip(asked, waiting)]
    return [(case, why) for case, why in found if why]
