"""The rows and laws of a crate: its public functions that do nothing, and say something of definitions."""

import re
from dataclasses import dataclass
from pathlib import Path
from typing import Iterator

from celbpf_tools.commands.belief import WORD, rests_on
from celbpf_tools.definitions import CRATES, USE, Module

LAW = re.compile(r"^pub fn (\w+)\(\)\n((?:    .*\n)+)\{", re.M)
ROWS = re.compile(r"stands?$|_holds?$")
FILES = ("laws.rt", "rows.rt")


@dataclass(frozen=True)
class Pin:
    """One of these functions: its crate, its path there, and the definitions that its clauses rest on."""

    crate: str
    path: str
    rests_on: frozenset[tuple[str, str]]

    @property
    def is_rows(self) -> bool:
        return is_rows(self.path)


def is_rows(path: str) -> bool:
    """Whether a function has literal rows, and no law."""
    return bool(ROWS.search(path))


def files(crate: Path) -> Iterator[tuple[str, str]]:
    """The files of a crate that have such functions: the module of each and its text."""
    for file in sorted(crate.glob("src/**/*.rt")):
        if file.name in FILES:
            yield "::".join(file.relative_to(crate / "src").with_suffix("").parts), file.read_text(encoding="utf-8")


def paths(crate: Path) -> list[str]:
    """The paths of these functions in a crate, in its order."""
    return [f"{module}::{name}" for module, text in files(crate) for name, _ in LAW.findall(text)]


def imported(text: str) -> dict[str, tuple[str, str]]:
    """The definitions that a file of code names: the module and the name of each."""
    found = {}
    for line in text.splitlines():
        use = USE.match(line.strip().removeprefix("ghost ").removesuffix(";"))
        if use and use[2]:
            found.update({name.split(" as ")[-1]: (use[1], name.split(" as ")[0]) for name in use[2].split(", ")})
    return found


def pins(read: dict[str, Module], crate: Path) -> list[Pin]:
    """The rows and laws of a crate, with what they rest on among the definitions that were read."""
    found = []
    for module, text in files(crate):
        names = imported(text)
        for name, clauses in LAW.findall(text):
            cited = [names[word] for word in WORD.findall(clauses) if word in names and names[word][0] in read]
            rest = set().union(*(rests_on(read, read[at].file, word) for at, word in cited))
            found.append(Pin(crate.name, f"{module}::{name}", frozenset(rest)))
    return found


def all_pins(read: dict[str, Module], crates: Path = CRATES) -> list[Pin]:
    """Those of all crates."""
    return [pin for crate in sorted(crates.iterdir()) if crate.is_dir() for pin in pins(read, crate)]
