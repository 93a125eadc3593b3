"""How a script begins and ends.

A script's status is what its command returns (`None` counts as 0). Beside these:

    3      a file cannot be read or written; one line on standard error says which. Also what the script did not expect,
           with a traceback: 1 always has a meaning of the command's own, such as a denial
    130    interrupted
    141    what reads the output has closed it, as with `| head -1`
"""

import argparse
import os
import sys
import traceback
from types import ModuleType
from typing import Callable, NoReturn, Optional

FILE = 3
INTERRUPTED = 130
CLOSED = 141
# trees are as deep as an expression has operators in a row
DEEPEST = 50_000


class Stop(Exception):
    """Ends a script with a line on standard error and a status."""

    def __init__(self, line: str, status: int = FILE):
        super().__init__(line)
        self.line = line
        self.status = status


def usage_of(doc: Optional[str]) -> str:
    """The usage in what a script says of itself."""
    return (doc or "").split("usage: ")[1].split("\n\n")[0]


def parser_of(doc: Optional[str]) -> argparse.ArgumentParser:
    """A parser of words, whose help is the usage, what a script says of itself, and its options."""
    usage = usage_of(doc)
    what = (doc or "").strip().replace(f"usage: {usage}", "").replace("\n\n\n\n", "\n\n").strip()
    return argparse.ArgumentParser(usage=usage, description=what, formatter_class=argparse.RawDescriptionHelpFormatter)


def told(error: OSError) -> str:
    """What an error of the system says, with the file that it is about."""
    why = error.strerror or str(error)
    return f"{error.filename}: {why}" if error.filename else f"cannot write: {why}"


def ended(name: str, main: Callable[[], Optional[int]]) -> int:
    """Runs a command; its status."""
    try:
        status = main() or 0
        sys.stdout.flush()
        return status
    except BrokenPipeError:
        return CLOSED
    except KeyboardInterrupt:
        return INTERRUPTED
    except Stop as why:
        line, status = why.line, why.status
    except OSError as why:
        line, status = told(why), FILE
    except Exception:  # pylint: disable=broad-except
        traceback.print_exc()
        return FILE
    print(f"{name}: {line}", file=sys.stderr)
    return status


def drop_output() -> None:
    """What is still to be written goes nowhere, so that the end of the process does not fail on it."""
    os.dup2(os.open(os.devnull, os.O_WRONLY), sys.stdout.fileno())


def has_parser(command: ModuleType) -> bool:
    """Whether a command has a parser of its own, or one of `parser_of`, which answers `--help`."""
    return hasattr(command, "parser") or hasattr(command, "parser_of")


def run(name: str, main: Callable[[], Optional[int]]) -> NoReturn:
    """Runs a command as the script of this name, and ends the process."""
    sys.setrecursionlimit(DEEPEST)
    command = sys.modules[main.__module__]
    if sys.argv[1:] == ["--help"] and not has_parser(command):
        print((command.__doc__ or "").strip())
        sys.exit(0)
    status = ended(name, main)
    try:
        sys.stdout.flush()
    except OSError:
        drop_output()
    sys.exit(status)
