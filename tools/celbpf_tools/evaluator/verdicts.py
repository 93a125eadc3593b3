"""What a policy decides of a review, and what that costs."""

from dataclasses import dataclass, field
from typing import Any, Optional

from .costs import Costs
from .meaning import Meaning
from .values import ERROR, kind

SKIPPED, REJECTED, DENIED, ADMITTED = 1, 2, 3, 4
TRUE, FALSE, NO_BOOL = 0, 1, 2


@dataclass
class Verdict:
    """The outcome, what each validation came to where the policy ran, and the denials.

    `denials` has the place of each validation that denies, with its message expression's value, or None.
    """

    costs: Costs
    outcome: int = ADMITTED
    results: list[Any] = field(default_factory=list)
    denials: list[Any] = field(default_factory=list)


def result_of(value: Any) -> int:
    """What a condition or validation with this value came to."""
    if kind(value) != "bool":
        return NO_BOOL
    return TRUE if value else FALSE


class Deciding:
    """A compiled policy over the roots of a review."""

    def __init__(self, compiled: Any, roots: dict[str, Any]):
        self.compiled = compiled
        self.ignores = compiled.policy.ignores
        self.costs = Costs()
        self.costs.turn()
        self.meaning = Meaning(roots, {}, self.costs)

    def value(self, tree: Any) -> Any:
        """The value of a part."""
        self.costs.turn()
        return self.meaning.of(tree)

    def gate(self, conditions: list[Any]) -> Optional[int]:
        """The outcome that conditions give, or None where the policy runs."""
        if FALSE in conditions:
            return SKIPPED
        if NO_BOOL in conditions:
            return SKIPPED if self.ignores else REJECTED
        return None

    def denials(self, results: list[Any]) -> list[Any]:
        """The places of the validations that deny, with the values of their messages."""
        denying = (FALSE,) if self.ignores else (FALSE, NO_BOOL)
        found = []
        for place, result in enumerate(results):
            if result in denying:
                message = self.compiled.messages[place]
                found.append((place, None if message is None else self.value(message)))
        return found

    def verdict(self) -> Verdict:
        for name, tree in self.compiled.variables.items():
            self.meaning.variables[name] = self.value(tree)
        conditions = [result_of(self.value(tree)) for tree in self.compiled.conditions]
        results = [result_of(self.value(tree)) for tree in self.compiled.validations]
        outcome = self.gate(conditions)
        if outcome is not None:
            return Verdict(self.costs, outcome)
        denials = self.denials(results)
        return Verdict(self.costs, DENIED if denials else ADMITTED, results, denials)


def verdict_of(compiled: Any, roots: dict[str, Any]) -> Verdict:
    """The verdict of a policy over these roots."""
    return Deciding(compiled, roots).verdict()


def message_text(value: Any) -> Optional[str]:
    """The text that a message expression gave, or None."""
    return value if value is not ERROR and kind(value) == "text" else None
