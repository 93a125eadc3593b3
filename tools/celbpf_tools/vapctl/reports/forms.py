"""The forms of a report on objects, and where it is written."""

import argparse
import os
import sys
from typing import Callable, TextIO

from ..results import Report
from . import github, jsons, junit, policyreport, sarif, table
from .words import FormWord

FORMS: dict[str, Callable[[Report, TextIO], None]] = {
    "json": jsons.write, "junit": junit.write, "sarif": sarif.write, "github": github.write,
    "policyreport": policyreport.write,
}
NAMES = ("table", *FORMS)


def add_words(parser: argparse.ArgumentParser, listed: str = "also list the objects that are allowed") -> None:
    """The options of reports; `listed` is what --verbose does."""
    group = parser.add_argument_group("report")
    FormWord(NAMES).add_to(group, "table")
    group.add_argument("--color", choices=("auto", "always", "never"), default="auto",
                       help="colour in a table (default: auto, which is on a terminal without NO_COLOR)")
    group.add_argument("-v", "--verbose", action="store_true", help=listed)


def has_colour(given: argparse.Namespace, out: TextIO) -> bool:
    """Whether a table on a stream has colour."""
    if given.color != "auto":
        return bool(given.color == "always")
    return out.isatty() and not os.environ.get("NO_COLOR") and os.environ.get("TERM") != "dumb"


def write(report: Report, given: argparse.Namespace, shown: Callable[..., None] = table.write) -> None:
    """Writes a report in each form that is asked for; `shown` writes the table."""

    def written(name: str, out: TextIO) -> None:
        if name == "table":
            shown(report, out, has_colour(given, out), given.verbose)
        else:
            FORMS[name](report, out)

    for name, file in given.output or [("table", "")]:
        if not file:
            written(name, sys.stdout)
            continue
        with open(file, "w", encoding="utf-8") as out:
            written(name, out)
