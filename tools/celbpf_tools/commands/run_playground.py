"""Runs the tests of the page's modules in Node.

usage: tools/run-playground [--module FILE] [--program PROGRAM]

The modules ask FILE, or the module that `tools/wasm` made; if there is none, they ask PROGRAM and the gatekeeper beside it,
or those of the repository. Their types are checked if there is a `tsc` (Debian's node-typescript). The last line has the
numbers. The status is 1 if a test failed, and 10 if there is no Node.
"""

import os
import re
import shutil
import subprocess
import sys
from pathlib import Path

from ..entry import Stop, parser_of
from ..playground import module
from ..playground.sources import FOLDER

NO_NODE = 10
COUNTS = re.compile(r"^\S+ (tests|pass|fail|skipped) (\d+)$", re.MULTILINE)
FAILED = "failing tests:"


def environment(given_module: str, program: str) -> dict[str, str]:
    """What tells the tests what to ask."""
    found = dict(os.environ)
    if given_module:
        found[module.GIVEN] = str(Path(given_module).resolve())
    if program:
        found["CELBPF_PROGRAM"] = str(Path(program).resolve())
    return found


def type_faults() -> list[str]:
    """What the checker of types says of the modules; nothing if there is none."""
    tsc = shutil.which("tsc")
    if not tsc:
        print("types: left out, since there is no tsc")
        return []
    ran = subprocess.run([tsc, "--project", FOLDER / "jsconfig.json", "--pretty", "false"], cwd=FOLDER, capture_output=True, text=True)
    # the wrapper of the module has its own tests
    return [line for line in ran.stdout.splitlines() if "error TS" in line and not line.startswith("../")]


def main() -> int:
    parser = parser_of(__doc__)
    parser.add_argument("--module", metavar="FILE", default="")
    parser.add_argument("--program", metavar="PROGRAM", default="")
    given = parser.parse_args()
    node = shutil.which("node")
    if not node:
        raise Stop("there is no command node in the path; Debian has it as the package nodejs", NO_NODE)
    files = sorted(map(str, (FOLDER / "tests").glob("*.test.mjs")))
    ran = subprocess.run([node, "--test", "--test-reporter=spec", *files], env=environment(given.module, given.program),
                         capture_output=True, text=True)
    counts = {name: int(count) for name, count in COUNTS.findall(ran.stdout)}
    if ran.returncode:
        print(ran.stdout.partition(FAILED)[2] or ran.stdout, ran.stderr, file=sys.stderr)
    faults = type_faults()
    print(*faults, sep="\n" if faults else "", end="\n" if faults else "", file=sys.stderr)
    print(f"{counts.get('tests', 0)} tests of the page, {counts.get('fail', 0)} failed, {counts.get('skipped', 0)} left out")
    return 1 if ran.returncode or faults else 0
