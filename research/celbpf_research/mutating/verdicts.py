"""What a check of rows and laws over a changed definition comes to.

A row fails because it computes to something else, and that decides. A law may fail because only its proof has gone, so
it decides where the list of changes that make a law false has the change.
"""

import re
from dataclasses import dataclass, field

from . import pins

REFUSED = re.compile(r"^\S*specs/\S+\.antt:\d+:\d+: error: .*$", re.M)
FUNCTION = re.compile(r"^fn (?:\w+::)?([\w:]+): (.*)$", re.M)
VERDICTS = ("killed", "survived", "equivalent", "undecided", "ill-typed", "no answer")
# those of a change that has a meaning
MEANT = ("killed", "survived", "equivalent", "undecided")


@dataclass
class Outcome:
    """What came of a change, by which rows or laws, in how many seconds."""

    verdict: str
    rows: list[str] = field(default_factory=list)
    laws: list[str] = field(default_factory=list)
    seconds: float = 0
    reason: str = ""

    @property
    def told(self) -> str:
        by = ", ".join(name.split("::")[-1] for name in [*self.rows, *self.laws])
        return f"{self.verdict} {self.seconds:.0f} s" + (f" by {by}" if by else "")


def refused_files(said: str) -> set[str]:
    """The names of the files of definitions that a check refuses."""
    return {line.split(".antt:")[0].rpartition("/")[2] for line in REFUSED.findall(said)}


def judged(said: str, status: int) -> Outcome:
    """What the lines of a check come to; where laws alone fail it is undecided."""
    if REFUSED.search(said):
        return Outcome("ill-typed")
    functions = FUNCTION.findall(said)
    failed = [name for name, how in functions if not how.startswith("proved")]
    if failed:
        rows = [name for name in failed if pins.is_rows(name)]
        return Outcome("killed" if rows else "undecided", rows, [name for name in failed if name not in rows])
    return Outcome("survived" if functions and status == 0 else "no answer")


def decided(outcome: Outcome, reason: str) -> Outcome:
    """The outcome where the change is known to make a law false, for a reason that is empty if it is not known."""
    if outcome.verdict == "undecided" and reason:
        return Outcome("killed", [], outcome.laws, outcome.seconds, reason)
    return outcome
