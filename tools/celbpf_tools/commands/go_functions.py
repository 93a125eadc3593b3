"""Compares our definitions of functions of the API server's CEL library with Go's own, on texts from a seed.

usage: tools/go-functions [--seed N] [--count N]

By default 100,000 texts: durations with their whole units, timestamps with their fields, versions with and without
`normalize`, and how each compares with the last one. The definitions are written out in Python
(celbpf_tools/functions), which first has to give the values of their rows in specs/Rows. Go's are time.ParseDuration
and its methods, time.Parse with the checks of RFC 3339 that it leaves out, and blang/semver, on which cel-go's and the
API server's rest. It needs Debian's golang-go and golang-github-blang-semver-dev. It prints counts, and what differs;
then it ends with status 1. A duration with more places than ours reads (`fine`) is only counted.
"""

import argparse
import os
import subprocess
import tempfile
from collections import Counter
from pathlib import Path
from typing import Iterator

from ..entry import Stop, parser_of
from ..functions import durations, timestamps, versions
from ..functions.rows import rows
from ..functions.texts import texts
from ..home import DATA
from ..seeded.numbers import Numbers

SEED = 60
NAMES = {"d": "durations", "t": "timestamps", "v": "versions", "n": "normalized versions"}
# where Debian has its packages of Go
PACKAGES = "/usr/share/gocode"
NONE = "-"
MOST_SHOWN = 20


def words() -> argparse.Namespace:
    parser = parser_of(__doc__)
    parser.add_argument("--seed", type=int, default=SEED)
    parser.add_argument("--count", type=int, default=100_000)
    return parser.parse_args()


def of_go(lines: list[str]) -> list[str]:
    """Go's answers."""
    joined = "".join(f"{line}\n" for line in lines)
    with tempfile.TemporaryDirectory() as folder:
        source = Path(folder, "src", "functions")
        source.mkdir(parents=True)
        (source / "main.go").write_text((DATA / "go-functions" / "main.go.txt").read_text())
        world = {**os.environ, "GO111MODULE": "off", "GOPATH": f"{PACKAGES}:{folder}", "GOFLAGS": ""}
        program = f"{folder}/functions"
        subprocess.run(["go", "build", "-o", program, "functions"], check=True, env=world)
        ran = subprocess.run([program], check=True, input=joined, stdout=subprocess.PIPE, text=True)
    return ran.stdout.splitlines()


def of_duration(text: bytes) -> str:
    found = durations.duration(text)
    if not isinstance(found, int):
        return found or NONE
    return " ".join(map(str, [found, *durations.parts(found)]))


def of_timestamp(text: bytes) -> str:
    found = timestamps.timestamp(text)
    if found is None:
        return NONE
    return " ".join(map(str, [*divmod(found, timestamps.SECOND), *timestamps.fields(found)]))


def of_ours(lines: list[str]) -> Iterator[str]:
    """Our answers."""
    last = versions.Version(0, 0, 0, b"")
    for line in lines:
        kind, text = line[0], line[2:].encode()
        if kind == "d":
            yield of_duration(text)
        elif kind == "t":
            yield of_timestamp(text)
        elif found := versions.version(kind == "n", text):
            yield f"{found.major} {found.minor} {found.patch} {found.pre.decode()} {versions.precedence(found, last)}"
            last = found
        else:
            yield NONE


def check_rows() -> None:
    """Stops if the model has another value than a row."""
    checked = list(rows())
    for row, found, wanted in checked:
        if found != wanted:
            raise Stop(f"go-functions: {row}\nhas {found} in the model, and not {wanted}", 1)
    print(f"the model has the values of {len(checked)} rows")


def compare(lines: list[str], ours: list[str], go: list[str]) -> int:
    """Prints how many were read, and what differs; the number of those."""
    if not len(lines) == len(go) == len(ours):
        raise Stop(f"go-functions: {len(lines)} texts, {len(go)} and {len(ours)} answers")
    counts: Counter[str] = Counter()
    differing = []
    for line, our, its in zip(lines, ours, go):
        kind = NAMES[line[0]]
        counts[kind] += 1
        counts[f"{kind} read"] += its != NONE
        counts[f"{kind} fine"] += our == durations.FINE
        if our not in (durations.FINE, its):
            differing.append(f"{line}: {our}, and {its} in Go")
    print(", ".join(f"{name} {number}" for name, number in sorted(counts.items()) if number))
    print("".join(f"{line}\n" for line in differing[:MOST_SHOWN]), end="")
    return len(differing)


def main() -> int:
    given = words()
    check_rows()
    lines = list(texts(Numbers(given.seed), given.count))
    differing = compare(lines, list(of_ours(lines)), of_go(lines))
    print(f"{differing} of {len(lines)} differ")
    return 1 if differing else 0
