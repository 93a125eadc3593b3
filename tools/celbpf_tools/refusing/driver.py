"""The program of library calls, which is compiled of a copy of the crates without a proof."""

import os
import subprocess
import tempfile
from pathlib import Path
from typing import Any

from ..copies import with_driver
from ..entry import Stop
from ..quick.halves import Differs
from ..quick.native import compiled, kit_of

CRATES = (
    "serde_json text_kernels value_store value_table cel_tokens cel_reader cel_macros cel_types codegen policy_glue loader"
    " assembler disassembler"
)
# in the order of main.rt.txt
CALLS = ("reads", "expressions", "code", "policies", "lists", "values", "calls", "searches", "pushes")


def ran(commands: list[Any], folder: Path, more: dict[str, str]) -> tuple[int, str]:
    """The first status that is not 0 of commands that run at once, and what they said."""
    with tempfile.TemporaryFile() as said:
        env = {**os.environ, **more}
        started = [subprocess.Popen([str(word) for word in words], cwd=folder, env=env, stdout=said, stderr=said) for words in commands]
        statuses = [one.wait() for one in started]
        said.seek(0)
        return next(filter(None, statuses), 0), said.read().decode(errors="replace")


def made(copy: Path, folder: Path) -> Path:
    """The program, in a folder."""
    driver = with_driver(copy, "refused-allocations", "main", CRATES)
    try:
        return compiled(driver, kit_of("rt"), folder, ran)
    except Differs as why:
        raise Stop(f"the library calls are not compiled: {why}") from why
