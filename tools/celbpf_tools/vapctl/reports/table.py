"""A table for people, with colour on a terminal: a line for each object, and below it one for each finding."""

from collections.abc import Iterator
from typing import TextIO

from ..results import ALLOWED, AUDIT, DENY, ERROR, WARN, Finding, Report, Result
from .texts import on_line

WORDS = {DENY: "denied", WARN: "warns", AUDIT: "audits", ERROR: "undecided"}
COLOURS = {DENY: "31", WARN: "33", AUDIT: "36", ERROR: "35", ALLOWED: "32"}


class Table:
    """The table of a report, whose columns are as wide as what is in them."""

    def __init__(self, report: Report, colour: bool, verbose: bool):
        self.report, self.colour, self.verbose = report, colour, verbose
        found = [one for result in report.results for one in result.findings]
        self.words = max((len(WORDS[one.action]) for one in found), default=0)
        self.policies = max((len(on_line(one.policy)) for one in found), default=0)

    def painted(self, text: str, action: str) -> str:
        """A text in the colour of an action."""
        return f"\x1b[{COLOURS[action]}m{text}\x1b[0m" if self.colour else text

    def of_finding(self, finding: Finding) -> str:
        """The line of a finding."""
        word = WORDS[finding.action]
        policy = on_line(finding.policy).ljust(self.policies)
        line = f"  {self.painted(word, finding.action)}{' ' * (self.words - len(word))}  {policy}"
        return f"{line}  {on_line(finding.message)}" if self.policies else f"{line}{on_line(finding.message)}"

    def of_result(self, result: Result) -> Iterator[str]:
        """The lines of an object; none if nothing is found and objects that are allowed are not listed."""
        title = on_line(f"{result.place}: {result.title}")
        if result.findings:
            yield title
            yield from map(self.of_finding, result.findings)
        elif self.verbose:
            yield title
            yield f"  {self.painted(ALLOWED, ALLOWED)}"

    def lines(self) -> Iterator[str]:
        """All lines: those of objects, of inputs that were not read, and the numbers."""
        for result in self.report.results:
            yield from self.of_result(result)
        for trouble in self.report.troubles:
            yield f"{on_line(str(trouble.place))}: not read"
            yield f"  {on_line(trouble.why)}"
        yield self.report.summary


def write(report: Report, out: TextIO, colour: bool, verbose: bool) -> None:
    """Writes the table of a report."""
    for line in Table(report, colour, verbose).lines():
        print(line, file=out)
