"""JUnit's XML: a suite for each file, a case for each object.

It has what the schema of Jenkins (junit-10.xsd) and that of Ant (JUnit.xsd) have in common, but for the times.
"""

import xml.etree.ElementTree as xml
from typing import TextIO

from ..results import AUDIT, DENIED, DENY, ERROR, UNDECIDED, WARN, Finding, Report, Result
from .texts import on_line, printed


def write(report: Report, out: TextIO) -> None:
    """Writes a report as JUnit's XML, in ASCII."""
    top = xml.Element("testsuites", name="vapctl")
    for file in files_of(report):
        top.append(suite_of(report, file))
    xml.indent(top)
    print('<?xml version="1.0" encoding="UTF-8"?>', file=out)
    print(xml.tostring(top, encoding="us-ascii").decode("ascii").split("?>\n", maxsplit=1)[-1], file=out)


def files_of(report: Report) -> list[str]:
    """The files of objects, and those that were not read."""
    places = [*(result.place for result in report.results), *(trouble.place for trouble in report.troubles)]
    return list(dict.fromkeys(place.file for place in places))


def suite_of(report: Report, file: str) -> xml.Element:
    """The suite of a file."""
    results = [result for result in report.results if result.place.file == file]
    troubles = [trouble for trouble in report.troubles if trouble.place.file == file]
    errors = sum(result.outcome == UNDECIDED for result in results) + len(troubles)
    suite = xml.Element("testsuite", name=printed(file), tests=str(len(results) + len(troubles)))
    suite.set("failures", str(sum(result.outcome == DENIED for result in results)))
    suite.set("errors", str(errors))
    for result in results:
        suite.append(case_of(result))
    for trouble in troubles:
        case = xml.SubElement(suite, "testcase", classname=printed(file), name=on_line(f"read {trouble.place}"))
        added(case, "error", [str(trouble)])
    return suite


def case_of(result: Result) -> xml.Element:
    """The case of an object."""
    case = xml.Element("testcase", classname=printed(result.place.file), name=on_line(result.title))
    told = {action: [line_of(result, one) for one in result.findings if one.action == action]
            for action in (DENY, WARN, AUDIT, ERROR)}
    if result.outcome == DENIED:
        added(case, "failure", told[DENY] + told[ERROR])
    elif result.outcome == UNDECIDED:
        added(case, "error", told[ERROR] + told[DENY])
    if told[WARN] + told[AUDIT]:
        xml.SubElement(case, "system-out").text = printed("\n".join(told[WARN] + told[AUDIT]))
    return case


def line_of(result: Result, finding: Finding) -> str:
    """A finding, with the place of its object."""
    return f"{result.place}: {finding.policy + ': ' if finding.policy else ''}{finding.message}"


def added(case: xml.Element, tag: str, lines: list[str]) -> None:
    """Adds the failure or the error of a case: the first line is its message."""
    element = xml.SubElement(case, tag, message=on_line(lines[0]) if lines else "", type=tag)
    element.text = printed("\n".join(lines))
