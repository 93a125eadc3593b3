"""The answer of `celbpf review`, and what it costs."""

from dataclasses import dataclass
from typing import Any, Optional

from . import policies, responses, reviews, verdicts
from .refused import Refused


@dataclass
class Answer:
    """An accepted policy and review: the verdict, the response's text and the charge of the roots."""

    policy: policies.Policy
    verdict: verdicts.Verdict
    response: str
    charge: int

    @property
    def costs(self) -> Any:
        return self.verdict.costs

    @property
    def allowed(self) -> bool:
        return responses.is_allowed(self.verdict)

    @property
    def is_within(self) -> bool:
        """Whether no program of this policy is stopped over this review."""
        return self.costs.is_within(self.charge)


def answer(policy: bytes, review: bytes, namespace: Optional[bytes] = None, params: Optional[bytes] = None) -> Answer:
    """The answer to these documents, or what refuses them: the policy first, then the review."""
    try:
        compiled = policies.compile_policy(policies.read(policy))
    except Refused as why:
        raise Refused(f"N1 {why.text}") from why
    given = reviews.read(review, namespace, params)
    verdict = verdicts.verdict_of(compiled, given.roots)
    text = responses.response(compiled.policy, verdict, given.uid)
    return Answer(compiled.policy, verdict, text, given.charge)
