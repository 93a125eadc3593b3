"""What a dispatch meets, and the findings of one evaluation."""

from dataclasses import dataclass
from dataclasses import field as member
from typing import Any, Optional

from .. import verdicts

LONGEST_MESSAGE = 5120
# Unicode's White_Space
BLANKS = "\t\n\v\f\r \x85\xa0\u1680\u2028\u2029\u202f\u205f\u3000" + "".join(map(chr, range(0x2000, 0x200B)))
NOT_DECIDED = "match conditions not decided"
INVALID = "Invalid"


@dataclass
class Denial:
    """A denial; a configuration error of a policy has no binding."""

    policy: str
    binding: Optional[str]
    message: str
    reason: str


@dataclass
class Failure:
    """A failed validation as the audit annotation shows it."""

    policy: str
    binding: str
    place: int
    message: str
    actions: list[Any]


@dataclass
class Refusal:
    """A policy that does not decide, whether it is under Ignore, and why it does not."""

    policy: str
    ignores: bool
    text: str


@dataclass
class Events:
    """What the dispatch met, in order."""

    denials: list[Any] = member(default_factory=list)
    warnings: list[Any] = member(default_factory=list)
    failures: list[Any] = member(default_factory=list)
    refusals: list[Any] = member(default_factory=list)
    not_found: Optional[str] = None

    @property
    def refusal(self) -> Optional[Refusal]:
        """The refusal that is told: the first of a policy under Fail, or else the first."""
        under_fail = [one for one in self.refusals if not one.ignores]
        return next(iter(under_fail + self.refusals), None)

    def add(self, policy: str, binding: Any, finding: tuple[Any, ...]) -> None:
        """Adds a finding, for each action of the binding."""
        place, message, reason = finding
        for action in binding.actions:
            if action == "Deny":
                self.denials.append(Denial(policy, binding.name, message, reason))
            elif action == "Warn":
                failed = f"Validation failed for ValidatingAdmissionPolicy '{policy}' with binding '{binding.name}'"
                self.warnings.append(f"{failed}: {message}")
            else:
                self.failures.append(Failure(policy, binding.name, place, message, binding.actions))


def trimmed(text: str) -> str:
    return text.strip(BLANKS)


def message_of(validation: dict[str, Any], value: Any) -> str:
    """The message of a validation that is false, whose message expression gave this value."""
    if isinstance(value, str):
        text = trimmed(value)
        if text and "\n" not in text and len(text.encode()) <= LONGEST_MESSAGE:
            return text
    return trimmed(validation.get("message", "")) or f"failed expression: {trimmed(validation['expression'])}"


def findings(policy: Any, verdict: verdicts.Verdict) -> list[Any]:
    """Place, message and reason of each validation that fails, for a policy as its document has it."""
    if verdict.outcome == verdicts.REJECTED:
        return [(0, NOT_DECIDED, INVALID)]
    found = []
    for place, value in verdict.denials:
        validation = policy.validations[place]
        if verdict.results[place] == verdicts.FALSE:
            found.append((place, message_of(validation, value), validation.get("reason", INVALID)))
        else:
            found.append((place, f"expression '{validation['expression']}' resulted in error", INVALID))
    return found
