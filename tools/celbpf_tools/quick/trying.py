"""A run by `rt try`, which compiles the sources each time, if the toolchain gives no program to keep.

The files that the words name are handed over. An image that `compile` or `asm` writes is not kept, since rt hands back
no file. Standard input is read to its end first.
"""

import os
import re
import subprocess
import sys
import tempfile
from pathlib import Path
from typing import Any, Callable

# commands whose last word is a file that is written
WRITING = ("compile", "asm")
STDIN = "/dev/stdin"
ENDED = re.compile(r"^run=ended status=(\d+)", re.MULTILINE)
# lines of rt among those of the program's standard error
OF_RT = re.compile(r"^(checked: |run=|rt: )")


def handed(words: list[Any]) -> tuple[Any, ...]:
    """The words with names instead of files, and the words of rt that hand these over."""
    found, given = [], []
    for place, word in enumerate(words):
        if word not in (STDIN, os.devnull) and Path(word).is_file() and not word.startswith("-"):
            name = f"file{place}{Path(word).suffix}"
            given += ["--data", f"{name}={Path(word).resolve()}"]
            word = name
        found.append(word)
    return found, given


def plan(words: list[Any], say: Callable[..., Any]) -> list[Any]:
    """The program's words; what it would write goes nowhere."""
    if words[:1] and words[0] in WRITING and len(words) == 3:
        say(f"{words[2]} is not written: rt hands back no file")
        return [*words[:2], os.devnull]
    return words


def tried(crate: Path, words: list[Any], say: Callable[..., Any], waited: Callable[..., Any]) -> tuple[Any, ...]:
    """The status of a run, or None if there was none, and what rt said of it; `waited` waits for a process."""
    found, given = handed(plan(words, say))
    reads = words[:1] == ["debug"] or crate.name == "gatekeeper" or STDIN in words
    with tempfile.TemporaryFile() as out, tempfile.TemporaryFile() as err:
        asked = None if reads else subprocess.DEVNULL
        command = ["rt", "try", *given, "--", *found]
        # a group of its own, so that what rt started is ended with it
        how: dict[str, Any] = {"stdin": asked, "stdout": out, "stderr": err, "start_new_session": True}
        waited(subprocess.Popen(command, cwd=crate, **how))
        out.seek(0)
        err.seek(0)
        said = err.read().decode(errors="replace")
        ended = ENDED.search(said)
        if not ended:
            return None, said
        for line in said.splitlines():
            if not OF_RT.match(line):
                print(line, file=sys.stderr)
        sys.stdout.buffer.write(out.read())
        return int(ended[1]), said
