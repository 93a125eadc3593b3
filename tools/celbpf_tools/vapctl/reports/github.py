"""Annotations of GitHub Actions: a workflow command for each finding."""

from typing import TextIO

from ..results import DENY, ERROR, WARN, Report
from .texts import is_file, printed

LEVELS = {DENY: "error", ERROR: "error", WARN: "warning"}


def data(text: str) -> str:
    """A text as the data of a workflow command."""
    return printed(text).replace("%", "%25").replace("\r", "%0D").replace("\n", "%0A")


def value(text: str) -> str:
    """A text as the value of a property."""
    return data(text).replace(":", "%3A").replace(",", "%2C")


def command(level: str, file: str, line: int, title: str, text: str) -> str:
    """A workflow command; one on standard input has no file."""
    properties = [f"file={value(file)}"] if is_file(file) else []
    properties += [f"line={line}"] if properties and line else []
    properties += [f"title={value(title)}"] if title else []
    return f"::{level} {','.join(properties)}::{data(text)}" if properties else f"::{level}::{data(text)}"


def write(report: Report, out: TextIO) -> None:
    """Writes an annotation for each finding, and the numbers as a line of the log."""
    for result in report.results:
        for one in result.findings:
            level = LEVELS.get(one.action, "notice")
            told = f"{result.title}: {one.message}"
            print(command(level, result.place.file, result.place.line, one.policy, told), file=out)
    for trouble in report.troubles:
        print(command("error", trouble.place.file, trouble.place.line, "not read", trouble.why), file=out)
    print(data(report.summary), file=out)
