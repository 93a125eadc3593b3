"""Tables of runs of `vapctl` on small documents, with what they print.

A line `policy SPEC` makes policy.json of a specification, `review REQUEST` review.json of a request beside a uid, and
`file NAME TEXT` any other; in TEXT the two characters \\n are a line feed. A line `$ WORDS` runs `vapctl` with these
words, and `% TEXT` has bash run a text. `vapctl` is in the path there, $TOOLS is the folder of the scripts, $DATA has the
manifests, and $PROGRAM is the program celbpf. Below is what is printed on both outputs, up to a line `[STATUS]`. A line
`needs MODULE` ends a table where Python has no such module.
"""

import importlib.util
import json
import os
import subprocess
from pathlib import Path
from typing import Any, Optional

from ..asking.policies import whole
from ..asking.program import GIVEN
from ..entry import Stop
from ..home import DATA, ROOT, TOOLS

REVIEW = {"apiVersion": "admission.k8s.io/v1", "kind": "AdmissionReview"}


def made(line: str) -> Optional[tuple[Any, ...]]:
    """The name and the text of the file that a line makes, or None."""
    word, _, rest = line.partition(" ")
    if word == "policy":
        return "policy.json", json.dumps(whole(json.loads(rest)))
    if word == "review":
        return "review.json", json.dumps({**REVIEW, "request": {"uid": "u", **json.loads(rest)}})
    if word == "file":
        name, text = rest.split(" ", 1)
        return name, text.replace("\\n", "\n")
    return None


def ran(line: str, program: Path, folder: str) -> str:
    """What a line has printed on both outputs, and its status as a last line."""
    kind, text = line[0], line[2:]
    command: list[Any] = [ROOT / "vapctl", *text.split()] if kind == "$" else ["bash", "-c", text]
    path = f"{ROOT}:{os.environ['PATH']}"
    given = {"TOOLS": str(TOOLS), "DATA": str(DATA / "vapctl"), "PROGRAM": str(program), GIVEN: str(program), "PATH": path}
    ended = subprocess.run(command, cwd=folder, env={**os.environ, **given}, text=True, stdin=subprocess.DEVNULL,
                           stdout=subprocess.PIPE, stderr=subprocess.STDOUT, check=False)
    return f"{ended.stdout}[{ended.returncode}]\n"


def compared(name: str, lines: list[Any], program: Path, folder: str) -> tuple[int, int]:
    """The runs of a table, and how many of them differ."""
    runs = differing = 0
    while lines:
        line = lines.pop(0)
        if file := made(line):
            path = Path(folder, file[0])
            path.parent.mkdir(parents=True, exist_ok=True)
            path.write_text(file[1])
        elif line.startswith("needs ") and not importlib.util.find_spec(line.split()[1]):
            break
        elif line.startswith(("$ ", "% ")):
            wanted = ""
            while not wanted.endswith("]\n") or not wanted.splitlines()[-1].startswith("["):
                wanted += lines.pop(0) + "\n"
            found = ran(line, program, folder)
            runs += 1
            if found != wanted:
                differing += 1
                print(f"{name}: {line}\nwanted:\n{wanted}found:\n{found}", flush=True)
    return runs, differing


def tables_of(folder: Path, chosen: list[str]) -> list[Path]:
    """The tables of a folder, or those that are chosen."""
    found = {table.name: table for table in sorted(folder.iterdir())}
    if unknown := [name for name in chosen if name not in found]:
        raise Stop(f"no table is called {unknown[0]}; there are {', '.join(found)}")
    return [table for name, table in found.items() if not chosen or name in chosen]
