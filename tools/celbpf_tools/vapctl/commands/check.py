"""`vapctl check`: objects against the policies of a cluster, or given ones."""

import argparse

from ..checking import add_words, refuse_words, report_of
from ..reports import forms
from ..requests import OPERATIONS

MORE = """Each object is checked as a request that creates it, or that changes it if --old has it. The decision is that of
`gatekeeper --cluster`; the report has all findings of each object, with the file and the line of the manifest. Policies
see objects as they are written, without the defaults that an API server adds."""


def words(parser: argparse.ArgumentParser) -> None:
    """The options of the command."""
    parser.add_argument("manifests", nargs="+", metavar="MANIFESTS", help="files and folders of YAML or JSON; - is standard input")
    add_words(parser)
    parser.add_argument("--old", action="append", default=[], metavar="F", help="the objects before: a request changes them")
    parser.add_argument("--operation", choices=OPERATIONS,
                        help="of all requests (default: UPDATE of an object that --old has, else CREATE)")
    forms.add_words(parser)


def run(given: argparse.Namespace) -> int:
    """Checks the manifests, and writes the report."""
    refuse_words(given)
    report = report_of(given)
    forms.write(report, given)
    return report.status
