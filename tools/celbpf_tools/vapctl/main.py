"""The words of `vapctl`, and how it ends."""

import argparse
import difflib
import io
import os
import sys
import traceback
from typing import Iterable, NoReturn, Optional

from ..entry import Stop
from .commands import WHATS, module_of
from .statuses import REFUSED, WORDS
from .version import version

# `kubectl` runs the second as `kubectl vap`
NAMES = ("vapctl", "kubectl-vap")
DESCRIPTION = "Checks, tests and explains ValidatingAdmissionPolicies without a cluster."
STATUSES = """Status 0: all is allowed, or passed; 1: something is denied, or failed; 2: wrong words; 3: something is refused, is not
decided, or cannot be read."""
# calls inside calls are few, but where an expression is taken apart
DEEPEST = 2_000
DEEP = ("compile", "debug", "lint", "test", "translate", "why")
# how other programs name files
FILES = ("-f", "--filename", "--file")
# what scripts end with if there is no program to run
NO_PROGRAM = range(10, 14)
# shows where an error in vapctl itself is
DEBUG = "VAPCTL_DEBUG"


class Parser(argparse.ArgumentParser):
    """Words that are wrong end the command with a line, and not with the usage."""

    def error(self, message: str) -> NoReturn:
        self.exit(WORDS, f"{self.prog}: {message}; `{self.prog} --help` has the words\n")


def parser(name: str = "vapctl", chosen: Optional[str] = None) -> argparse.ArgumentParser:
    """The words of all commands, or of the one that is chosen, under the name by which the program is called."""
    made = Parser(prog=name.replace("kubectl-", "kubectl "), description=DESCRIPTION, epilog=STATUSES,
                  formatter_class=argparse.RawDescriptionHelpFormatter, allow_abbrev=False)
    made.add_argument("--version", action="version", version=f"vapctl {version()}", help="print the version, and end")
    commands = made.add_subparsers(dest="command", metavar="COMMAND", required=True, parser_class=Parser)
    for command, what in WHATS.items():
        if chosen is not None and command != chosen:
            commands.add_parser(command, help=what)
            continue
        module = module_of(command)
        one = commands.add_parser(command, help=what, description=f"{what}\n\n{module.MORE}", epilog=STATUSES,
                                  formatter_class=argparse.RawDescriptionHelpFormatter, allow_abbrev=False)
        module.words(one)
        one.set_defaults(run=module.run)
    return made


def similar(word: str, known: Iterable[str]) -> str:
    """What may be meant by a word that is not known: one that begins so, or else one that is alike."""
    near = sorted((one for one in known if one.startswith(word)), key=len) or difflib.get_close_matches(word, known, 1)
    return f"; there is {near[0]}" if near else ""


def parsed(called: str, words: list[str]) -> argparse.Namespace:
    """What the words ask for; `help COMMAND` is `COMMAND --help`."""
    words = [*words[1:2], "--help"] if words[:1] == ["help"] else words
    made = parser(called, words[0] if words else "")
    if words and not words[0].startswith("-") and words[0] not in WHATS:
        made.error(f"no command is called {words[0]}{similar(words[0], WHATS)}")
    given, others = made.parse_known_args(words)
    if others:
        command = next(one.choices[given.command] for one in made._actions if isinstance(one, argparse._SubParsersAction))
        name = others[0].partition("=")[0]
        meant = "; files are named without an option" if name in FILES else similar(name, command._option_string_actions)
        command.error(f"{name} is not known{meant}" if name.startswith("-") else f"{name} is a word too many")
    return given


def main(words: Optional[list[str]] = None) -> int:
    """Runs the command; an error in vapctl itself is reported on one line."""
    for stream in (sys.stdout, sys.stderr):
        if isinstance(stream, io.TextIOWrapper):
            # a terminal may have another encoding than texts of manifests
            stream.reconfigure(errors="backslashreplace")
    words = sys.argv[1:] if words is None else words
    called = os.path.basename(sys.argv[0])
    given = parsed(called if called in NAMES else NAMES[0], words)
    if given.command not in DEEP:
        sys.setrecursionlimit(DEEPEST)
    try:
        return int(given.run(given))
    except Stop as why:
        raise Stop(why.line, REFUSED if why.status in NO_PROGRAM else why.status) from why
    except SystemExit as ended:
        # a script that builds a program, and has told why there is none
        if ended.code in NO_PROGRAM:
            return REFUSED
        raise
    except (OSError, KeyboardInterrupt):
        raise
    except Exception as why:  # pylint: disable=broad-except
        if os.environ.get(DEBUG):
            traceback.print_exc()
        told = f"{type(why).__name__}: {why}".splitlines()[0]
        print(f"vapctl: an error in vapctl itself, please report it: {told} ({DEBUG}=1 shows more)", file=sys.stderr)
        return REFUSED
