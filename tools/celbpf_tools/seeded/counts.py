"""What came of many cases, in numbers."""

from collections import Counter
from statistics import median
from typing import Any, Iterator

from ..evaluator.verdicts import ADMITTED, DENIED, REJECTED, SKIPPED

OUTCOMES = {ADMITTED: "admitted", SKIPPED: "skipped", DENIED: "denied", REJECTED: "rejected"}


class Counts:
    """Sums over outcomes."""

    def __init__(self) -> None:
        self.outcomes: Counter[str] = Counter()
        self.refusals: Counter[str] = Counter()
        self.ratios: list[float] = []
        self.beyond = 0
        self.differing = 0

    @property
    def accepted(self) -> int:
        return self.outcomes.total()

    def add(self, outcome: Any) -> None:
        self.differing += bool(outcome.differences)
        if outcome.answer is None:
            self.refusals[kind_of(outcome.refusal)] += 1
            return
        self.outcomes[OUTCOMES[outcome.answer.verdict.outcome]] += 1
        self.beyond += not outcome.answer.is_within
        if outcome.steps:
            self.ratios.append(outcome.steps / outcome.answer.costs.work)

    def lines(self) -> Iterator[str]:
        """The numbers, a line each."""
        yield f"accepted {self.accepted}: {listed(self.outcomes)}"
        if self.refusals:
            yield f"refused {self.refusals.total()}: {listed(self.refusals)}"
        yield f"beyond the bound on charge or depth {self.beyond}"
        if self.ratios:
            middle, most = median(self.ratios), max(self.ratios)
            yield f"steps for each unit of work: median {middle:.1f}, greatest {most:.1f}"
        yield f"different {self.differing}"


def kind_of(refusal: str) -> str:
    """The numbers of a refusal, without its places."""
    return " ".join(word for word in refusal.split() if len(word) == 2 and word[0].isupper())


def listed(counter: Counter[str]) -> str:
    return ", ".join(f"{name} {count}" for name, count in sorted(counter.items()))
