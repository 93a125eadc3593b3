"""How the outcomes of tests are told: TAP, short lines, JUnit's XML."""

import os
import xml.etree.ElementTree as xml
from dataclasses import dataclass, field
from typing import Any, BinaryIO, TextIO, Union

GREEN, RED, PLAIN = "\x1b[32m", "\x1b[31m", "\x1b[0m"


@dataclass
class Result:
    """What came of a case, or of a file that cannot be read.

    `failures` say why it is not as wanted; `is_unread` says that nothing was decided of it.
    """

    file: str
    name: str
    failures: list[Any] = field(default_factory=list)
    is_unread: bool = False

    @property
    def title(self) -> str:
        return f"{self.file}: {self.name}" if self.name else self.file


def one_line(text: str) -> str:
    """A text on one line, and without characters that a terminal would obey."""
    return "".join(one if one.isprintable() else " " if one in "\n\t" else f"\\u{ord(one):04x}" for one in text)


def tap(results: list[Any], notes: list[Any], out: TextIO) -> None:
    """Version 13 of the Test Anything Protocol; notes are comments."""
    print("TAP version 13", f"1..{len(results)}", sep="\n", file=out)
    for place, result in enumerate(results, 1):
        title = one_line(result.title).replace("#", "\\#")
        print(f"{'not ok' if result.failures else 'ok'} {place} - {title}", file=out)
        for line in result.failures:
            print(f"# {one_line(line)}", file=out)
    for line in notes:
        print(f"# {one_line(line)}", file=out)


def coloured(text: str, colour: str, out: TextIO) -> str:
    """A text with colour if the stream is a terminal, and NO_COLOR is not set."""
    return f"{colour}{text}{PLAIN}" if out.isatty() and not os.environ.get("NO_COLOR") else text


def lines(results: list[Any], notes: list[Any], out: TextIO) -> None:
    """A line for each file, and below it those cases that fail."""
    for file in dict.fromkeys(result.file for result in results):
        of_file = [result for result in results if result.file == file]
        failed = [result for result in of_file if result.failures]
        word = coloured(f"{'FAIL' if failed else 'ok':4}", RED if failed else GREEN, out)
        print(f"{word} {one_line(file)}: {len(of_file) - len(failed)} of {len(of_file)}", file=out)
        for result in failed:
            if result.name:
                print(f"     {coloured(one_line(result.name), RED, out)}", file=out)
            for line in result.failures:
                print(f"         {one_line(line)}", file=out)
    for line in notes:
        print(one_line(line), file=out)


def junit(results: list[Any], target: Union[str, BinaryIO]) -> None:
    """JUnit's XML, to a file or a stream: a suite for each file."""
    top = xml.Element("testsuites")
    for file in dict.fromkeys(result.file for result in results):
        of_file = [result for result in results if result.file == file]
        unread = sum(result.is_unread for result in of_file)
        failed = sum(bool(result.failures) for result in of_file) - unread
        suite = xml.SubElement(top, "testsuite", name=xml_text(file), tests=str(len(of_file)))
        suite.set("failures", str(failed))
        suite.set("errors", str(unread))
        for result in of_file:
            case = xml.SubElement(suite, "testcase", classname=xml_text(file), name=xml_text(result.name) or "read")
            for line in result.failures:
                xml.SubElement(case, "error" if result.is_unread else "failure", message=xml_text(line))
    xml.indent(top)
    xml.ElementTree(top).write(target, encoding="utf-8", xml_declaration=True)


def xml_text(text: str) -> str:
    """A text without the characters that XML has no place for."""
    return "".join(one if one.isprintable() or one in "\n\t" else f"\\u{ord(one):04x}" for one in text)
