"""`vapctl test`: the tests of policies."""

import argparse
import sys

from ...testing import output, running
from ..one_decision import add_programs
from ..reports.words import FormWord, refuse_twice
from ..statuses import BAD, GOOD, REFUSED

MORE = """In a folder it takes the files tests.yaml, tests.yml and tests.json, also in subfolders. docs/VAPCTL.md has the keys of
a test file."""
FORMS = ("table", "tap", "junit")


def words(parser: argparse.ArgumentParser) -> None:
    """The options of the command."""
    parser.add_argument("places", nargs="+", metavar="TESTS", help="folders and test files; - is standard input")
    parser.add_argument("--coverage", action="store_true",
                        help="also tell which outcomes of conditions, validations and messages no case reaches")
    FormWord(FORMS).add_to(parser, "table on a terminal, else tap")
    add_programs(parser)


def run(given: argparse.Namespace) -> int:
    """Runs the tests, and writes the report."""
    refuse_twice(given.output)
    results, notes = running.outcome(given)
    for name, file in given.output or [("table" if sys.stdout.isatty() else "tap", "")]:
        write(name, file, results, notes)
    status = running.status_of(results)
    return {0: GOOD, 1: BAD}.get(status, REFUSED)


def write(name: str, file: str, results: list[output.Result], notes: list[str]) -> None:
    """Writes the report in a form."""
    if name == "junit":
        sys.stdout.flush()
        output.junit(results, file or sys.stdout.buffer)
        return
    shown = output.lines if name == "table" else output.tap
    if not file:
        shown(results, notes, sys.stdout)
        return
    with open(file, "w", encoding="utf-8") as out:
        shown(results, notes, out)
