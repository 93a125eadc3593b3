"""What came of each object."""

from dataclasses import dataclass, field

from .inputs import Place, Thing, Trouble
from .statuses import BAD, GOOD, REFUSED

ALLOWED, DENIED, UNDECIDED = "allowed", "denied", "undecided"
# what a binding does with a finding, from the most severe on, and a policy that does not decide
DENY, WARN, AUDIT, ERROR = "deny", "warn", "audit", "error"
# the most names that a line lists
MOST_NAMES = 3


@dataclass(frozen=True)
class Finding:
    """What a policy finds by one of its bindings. `policy` is empty if the request is denied before any is asked. `action` is
    the most severe of the binding, and `is_audited` tells whether it also writes the audit log.
    """

    policy: str
    binding: str
    action: str
    message: str
    is_audited: bool = False


@dataclass
class Result:
    """The outcome of an object: what the gatekeeper answers, and all findings. `message` is the cluster's own text."""

    thing: Thing
    namespace: str
    outcome: str
    message: str = ""
    findings: list[Finding] = field(default_factory=list)

    @property
    def place(self) -> Place:
        return self.thing.place

    @property
    def name(self) -> str:
        """Namespace and name."""
        return f"{self.namespace}/{self.thing.name}" if self.namespace and self.thing.name else self.thing.name

    @property
    def title(self) -> str:
        """The kind with namespace and name."""
        return f"{self.thing.kind} {self.name}".rstrip()


@dataclass
class Report:
    """All results, what could not be read, the policies that were asked, whether a warning is a failure, how many objects were
    left out since their kind is not known, and the policies that were given and are refused.
    """

    results: list[Result] = field(default_factory=list)
    troubles: list[Trouble] = field(default_factory=list)
    policies: list[str] = field(default_factory=list)
    fails_on_warn: bool = False
    left_out: int = 0
    refused: list[str] = field(default_factory=list)

    def count(self, outcome: str) -> int:
        """The number of objects with an outcome."""
        return sum(result.outcome == outcome for result in self.results)

    def findings(self, *actions: str) -> list[tuple[Result, Finding]]:
        """The results with each finding of these actions."""
        return [(result, one) for result in self.results for one in result.findings if one.action in actions]

    @property
    def status(self) -> int:
        if self.troubles or self.refused or self.findings(ERROR):
            return REFUSED
        is_warned = self.fails_on_warn and self.findings(WARN)
        return BAD if self.count(DENIED) or is_warned else GOOD

    @property
    def summary(self) -> str:
        """The numbers of objects by their outcomes, on one line."""
        told = [f"{self.count(outcome):,} {outcome}" for outcome in (ALLOWED, DENIED)]
        told += [f"{self.count(UNDECIDED):,} not decided"] if self.count(UNDECIDED) else []
        told += [plural(len(self.troubles), "input") + " not read"] if self.troubles else []
        told += [f"{self.left_out:,} left out"] if self.left_out else []
        warned = len(self.findings(WARN))
        audited = len(self.findings(AUDIT))
        told += [plural(warned, "warning")] if warned else []
        told += [f"{plural(audited, 'finding')} for the audit log"] if audited else []
        return f"{plural(len(self.results), 'object')}: {', '.join(told)}"


def plural(count: int, word: str) -> str:
    """A number with a word, which gets an s unless the number is 1."""
    return f"{count:,} {word}{'' if count == 1 else 's'}"


def listed(names: list[str]) -> str:
    """Names, of which the first are listed."""
    return ", ".join(names[:MOST_NAMES]) + f" and {len(names) - MOST_NAMES:,} more" * (len(names) > MOST_NAMES)
