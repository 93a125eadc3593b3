"""Stands in for a gatekeeper that reads the wide language: it answers as the evaluator does. With --wrong as the first
argument it takes an optional without a value for the error.
"""

import json
import sys
from pathlib import Path

sys.path.insert(0, str(Path(__file__).resolve().parents[2]))

from typing import Any

from celbpf_tools.entry import DEEPEST  # noqa: E402
from celbpf_tools.evaluator import responses, reviews  # noqa: E402
from celbpf_tools.evaluator.refused import Refused  # noqa: E402
from celbpf_tools.evaluator.values import ERROR  # noqa: E402
from celbpf_tools.wide import calling, meaning, policies  # noqa: E402

OPTIONS = ("--policy", "--namespace", "--params")


def answer(gates: list[Any], line: bytes, beside: dict[str, Any]) -> str:
    """The answer to a review: the messages of all policies that deny."""
    review = reviews.read(line, beside.get("--namespace"), beside.get("--params"))
    denied = []
    for gate in gates:
        verdict = policies.verdict_of(gate, review.roots)
        if not responses.is_allowed(verdict):
            denied.append(json.loads(responses.response(gate.compiled.policy, verdict, review.uid))["response"])
    allowed = {"allowed": True, "uid": review.uid}
    response = denied[0] if denied else allowed
    for other in denied[1:]:
        response["status"]["message"] += "; " + other["status"]["message"]
    whole = {"apiVersion": "admission.k8s.io/v1", "kind": "AdmissionReview", "response": response}
    return json.dumps(whole, ensure_ascii=False, sort_keys=True, separators=(",", ":"))


def main(words: list[Any]) -> int:
    sys.setrecursionlimit(DEEPEST)
    if words[:1] == ["--wrong"]:
        setattr(meaning, "NONE", ERROR)
    files = [(option, Path(name).read_bytes()) for option, name in zip(words, words[1:]) if option in OPTIONS]
    try:
        gates = [policies.read(json.loads(text)) for option, text in files if option == "--policy"]
    except Refused as why:
        print(f"celbpf: {why.text}", file=sys.stderr)
        return 3
    for line in sys.stdin.buffer:
        try:
            print(answer(gates, line, dict(files)))
        except calling.NotDecided:
            print('{"refused":"N8"}')
    return 0


if __name__ == "__main__":
    sys.dont_write_bytecode = True
    sys.exit(main(sys.argv[1:]))
