"""The words of `-o`: forms of a report, to standard output or to files."""

import argparse
from dataclasses import dataclass

from ...entry import Stop
from ..statuses import WORDS


@dataclass(frozen=True)
class FormWord:
    """Reads a form of these names and a file, which is empty for standard output: `FORM` or `FORM=FILE`."""

    names: tuple[str, ...]

    def __call__(self, text: str) -> tuple[str, str]:
        name, equals, file = text.partition("=")
        if name not in self.names or (equals and not file):
            raise argparse.ArgumentTypeError(f"{text!r} is none of {', '.join(self.names)}, nor one of these with =FILE")
        return name, file

    def add_to(self, group: argparse._ActionsContainer, default: str) -> None:
        """Adds the option; `default` says which form is the default."""
        group.add_argument("-o", "--output", action="append", type=self, default=[], metavar="FORM[=FILE]",
                           help=f"the form of the report, to standard output or to a file: {', '.join(self.names)} (default: {default}); "
                                "may be given several times")


def refuse_twice(output: list[tuple[str, str]]) -> None:
    """Refuses two reports to one file."""
    files = [file for _, file in output if file]
    if len(set(files)) < len(files):
        raise Stop("two reports go to one file", WORDS)
