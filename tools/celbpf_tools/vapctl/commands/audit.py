"""`vapctl audit`: the objects of a cluster against its policies, with a summary."""

import argparse
import os
import sys
import time

from ..checking import add_words, refuse_words, report_of
from ..reports import forms, summary
from ..requests import OPERATIONS

MORE = """The objects are those of files, or of standard input, as `kubectl get deployments -A -o json` prints them. Each is checked
as a request that creates it. The table has numbers; with -v it lists the findings too."""
# seconds between two numbers on a terminal
PATIENCE = 0.2


def words(parser: argparse.ArgumentParser) -> None:
    """The options of the command."""
    parser.add_argument("manifests", nargs="+", metavar="OBJECTS", help="files and folders of YAML or JSON; - is standard input")
    add_words(parser, jobs=os.cpu_count() or 1)
    parser.add_argument("--operation", choices=OPERATIONS, default="CREATE", help="of all requests (default: CREATE)")
    forms.add_words(parser, "also list the findings")
    parser.set_defaults(old=[])


class Progress:
    """Tells on a terminal how many answers have come."""

    def __init__(self) -> None:
        self.count = 0
        self.told = time.monotonic()
        self.is_shown = sys.stderr.isatty()

    def __call__(self) -> None:
        self.count += 1
        if self.is_shown and time.monotonic() - self.told > PATIENCE:
            self.told = time.monotonic()
            print(f"\r{self.count:,} answers", end="", file=sys.stderr, flush=True)

    def end(self) -> None:
        """Removes what was told."""
        if self.is_shown:
            print("\r\x1b[K", end="", file=sys.stderr, flush=True)


def run(given: argparse.Namespace) -> int:
    """Checks the objects, and writes the report."""
    refuse_words(given)
    progress = Progress()
    try:
        report = report_of(given, progress)
    finally:
        progress.end()
    forms.write(report, given, summary.write)
    return report.status
