"""Tries the wrong bodies that the gate leaves out: each edit of tools/more-edits is to be refused.

usage: tools/try-edits [CRATE..]

They are tried as those in crates/NAME/must-fail are, and by the same command. An edit whose text no longer stands
once in its crate is told as a bad one. A crate takes about its own proof and ten to sixty seconds for each edit. It
works on a copy, over the libraries that are built.
"""

import shutil
import subprocess
import sys
from typing import Any

from ..copies import copied
from ..home import TOOLS

EDITS = TOOLS / "more-edits"


def main() -> Any:
    names = sys.argv[1:] or sorted(folder.name for folder in EDITS.iterdir())
    with copied("incremental", "must-fail") as copy:
        for name in names:
            shutil.copytree(EDITS / name, copy / "crates" / name / "must-fail")
        number = sum(len(list((EDITS / name).iterdir())) for name in names)
        if subprocess.run(["rt", "must-fail", *names], cwd=copy).returncode:
            return 1
    print(f"each of {number} edits was refused")
    return 0
