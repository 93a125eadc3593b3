"""A summary for people: numbers by policy, namespace and kind."""

from collections import Counter
from collections.abc import Iterator
from typing import TextIO

from ..counts import ACTIONS, COLUMNS, by_kind, by_namespace, by_policy
from ..results import Report
from .table import Table
from .texts import on_line

GAP = "  "
# how objects without a namespace are called
NONE = "(none)"


def columns(head: str, names: tuple[str, ...], counts: dict[str, Counter[str]]) -> Iterator[str]:
    """A table of numbers, whose first column has the keys."""
    rows = [[head, *(name.upper() for name in names)]]
    rows += [[on_line(key) or NONE, *(f"{count[name]:,}" for name in names)] for key, count in counts.items()]
    widths = [max(len(row[column]) for row in rows) for column in range(len(rows[0]))]
    for first, *numbers in rows:
        cells = [first.ljust(widths[0]), *(cell.rjust(width) for cell, width in zip(numbers, widths[1:]))]
        yield GAP.join(cells).rstrip()


def lines(report: Report, colour: bool, verbose: bool) -> Iterator[str]:
    """The findings if they are to be listed, the numbers, and what was not read."""
    listed = list(Table(report, colour, False).lines())
    tail = listed[len(listed) - 1 - 2 * len(report.troubles) :]
    if verbose:
        yield from listed[: len(listed) - len(tail)]
        yield ""
    yield from columns("POLICY", tuple(ACTIONS.values()), by_policy(report))
    for head, counts in (("NAMESPACE", by_namespace(report)), ("KIND", by_kind(report))):
        yield ""
        yield from columns(head, COLUMNS, counts)
    yield ""
    yield from tail


def write(report: Report, out: TextIO, colour: bool, verbose: bool) -> None:
    """Writes the summary of a report."""
    for line in lines(report, colour, verbose):
        print(line, file=out)
