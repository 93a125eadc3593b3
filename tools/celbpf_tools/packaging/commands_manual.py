"""A man page of a program with subcommands, of what its parser knows."""

import argparse
import re
from collections.abc import Iterator

from .manual import body, escaped, head, inline

BLANKS = re.compile(r"\s+")


def commands_of(parser: argparse.ArgumentParser) -> dict[str, argparse.ArgumentParser]:
    """The parsers of the subcommands."""
    return next((dict(one.choices) for one in parser._actions if isinstance(one, argparse._SubParsersAction)), {})


def options_of(parser: argparse.ArgumentParser) -> list[str]:
    """The long options of a command."""
    return [word for one in parser._actions for word in one.option_strings if word.startswith("--")]


def synopsis(parser: argparse.ArgumentParser) -> str:
    """The words of a command on one line."""
    return BLANKS.sub(" ", parser.format_usage().removeprefix("usage: ")).strip()


def items(parser: argparse.ArgumentParser) -> Iterator[str]:
    """The arguments and options of a command."""
    for one in parser._actions:
        if isinstance(one, argparse._SubParsersAction) or one.help == argparse.SUPPRESS:
            continue
        value = one.metavar or ("{" + ",".join(map(str, one.choices)) + "}" if one.choices else "")
        takes = "" if one.nargs == 0 and one.option_strings else f" {value}"
        words = ", ".join(f"{word}{takes}" for word in one.option_strings) or str(value)
        yield from (".TP", f"\\fB{escaped(words)}\\fR", inline(str(one.help or "")))


def of_parser(name: str, parser: argparse.ArgumentParser, version: str, more: str = "") -> str:
    """The man page of a program, with a section for each subcommand, and what a page has more."""
    what = str(parser.description).rstrip(".")
    made = [*head(name, f"{what[:1].lower()}{what[1:]}", version), ".SH SYNOPSIS", escaped(synopsis(parser))]
    made += [".SH STATUS", *body(str(parser.epilog))]
    for word, command in commands_of(parser).items():
        made += [f".SH {escaped(word.upper())}", escaped(synopsis(command)), *body(f"\n{command.description}"), *items(command)]
    made += body(more)
    return "\n".join(line for line in made if line) + "\n"
