"""Prints what each file of the folders `specs` defines, from its head line, and the file that defines a name.

usage: tools/definitions [CRATE|NAME].. | --check

Without words it prints a Markdown table of the files of each crate, the lower crates first. With the name of a crate it
prints the table of that crate, with another name each place that declares it: a definition, a field or a case. --check
looks for files without a head line.
"""

import re
import sys
from pathlib import Path
from typing import Any, Iterator

from ..definitions import CRATES
from ..entry import Stop, usage_of
from ..home import ROOT

DECLARED = r"\s*(?:(?:abbrev|unfoldable|opaque|pub|data|record) )*{}(?= |$)[^=]* :(?: |$)"


def head_of(text: str) -> str:
    """The first sentence of the comment that a file begins with, without its full stop; empty if there is none."""
    words = []
    for line in text.splitlines():
        if not line.startswith("--"):
            break
        words.append(line.removeprefix("--").strip())
    return " ".join(words).split(". ")[0].removesuffix(".")


def crates_in_order() -> list[Any]:
    """The crates with definitions, the lower ones first."""
    names = [line.split(":")[0] for line in (ROOT / "crates.txt").read_text().splitlines() if line]
    return [name for name in names if (CRATES / name / "specs").is_dir()]


def files_of(folder: Path) -> Iterator[tuple[Any, ...]]:
    """The names of the files of definitions in a folder `specs`, with their heads; its root file only lists modules."""
    for path in sorted(folder.rglob("*.antt")):
        name = str(path.relative_to(folder)).removesuffix(".antt")
        if name != "Lib":
            yield name, head_of(path.read_text())


def table(crate: str) -> str:
    rows = [f"| `{name}` | {head} |" for name, head in files_of(CRATES / crate / "specs")]
    return "\n".join([f"## {crate}", "", "| File | What it defines |", "|---|---|", *rows])


def places(crates: Path, name: str) -> Iterator[str]:
    """Where a name is declared, as a definition, a field or a case, with the head of the file."""
    declared = re.compile(DECLARED.format(re.escape(name)))
    for path in sorted(crates.glob("*/specs/**/*.antt")):
        text = path.read_text()
        for place, line in enumerate(text.splitlines(), 1):
            if declared.match(line):
                yield f"{path.relative_to(crates)}:{place}: {head_of(text)}"


def without_head(crates: list[Any]) -> list[Any]:
    return [f"{crate}/specs/{name}.antt" for crate in crates for name, head in files_of(CRATES / crate / "specs") if not head]


def check(crates: list[Any]) -> int:
    lacking = without_head(crates)
    if lacking:
        print(*lacking, sep="\n")
        print(f"{len(lacking)} files of definitions have no head line")
        return 1
    print("each file of definitions has a head line")
    return 0


def main() -> int:
    words, crates = sys.argv[1:], crates_in_order()
    if words == ["--check"]:
        return check(crates)
    if any(word.startswith("-") for word in words):
        sys.exit(f"usage: {usage_of(__doc__)}")
    parts = [table(word) if word in crates else "\n".join(places(CRATES, word)) for word in words or crates]
    if any(parts):
        print("\n\n".join(filter(None, parts)))
    unknown = [word for word, part in zip(words, parts) if not part]
    if unknown:
        raise Stop(f"nothing declares {', '.join(unknown)}", 1)
    return 0
