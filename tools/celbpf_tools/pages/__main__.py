"""Runs over the built program what the pages show: commands with what they print, sessions, and expressions.

usage: python3 -m celbpf_tools.pages PROGRAM GATEKEEPER   (in tools, as tools/run-commands does)

The commands are in the table tools/data/run-commands/pages. There `page` names a page and `end` ends it; `with` is
a setting of its commands, and `file NAME WORDS` makes a file of the page's block that begins so. `$` is a command of
the page, or how a block of commands begins, and `!` one that is not in the page. Below it stands what the page shows
and the command prints, `block` for a block of the page, and its status. Sessions are found by their tables.
"""

import sys
import tempfile
from typing import Any

from ..asking.program import Program, located, usable
from .commands import Commands, run_table
from .expressions import Expressions
from .language import Language
from .texts import read


def main() -> Any:
    path, gatekeeper = located(sys.argv[1]), usable(sys.argv[2])
    with tempfile.TemporaryDirectory() as folder, tempfile.TemporaryDirectory() as other:
        language = Language(gatekeeper, other)
        language.all()
        language.clusters()
        commands = Commands(path, gatekeeper, folder)
        run_table(commands, read("tools/data/run-commands/pages").splitlines())
        expressions = Expressions(Program(path, other))
        expressions.cel()
    done = commands.runs + expressions.compared + language.compared
    differing = commands.differing + expressions.differing + language.differing
    print(f"{done - differing} of {done} commands and expressions of pages are as the pages say")
    return 1 if differing else 0


sys.exit(main())
