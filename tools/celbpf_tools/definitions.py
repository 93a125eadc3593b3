"""The definitions in the files of `specs`. Names are followed as they stand, and nothing is parsed."""

import re
from dataclasses import dataclass, field
from typing import Any, Callable, Iterator, Optional

from .home import ROOT

CRATES = ROOT / "crates"
USE = re.compile(r"(?:(?:abbrev|unfoldable|opaque|pub) )*use (Rattle\.[\w.+\-]+?)(?:\.\{(.*)\})?(?: as ([\w◌]+))?$")
BLOCK = re.compile(r"(?:(?:abbrev|unfoldable) )?mutual|module _ .* where$")
HEAD = re.compile(r"( {2})?(?! )(?:(?:abbrev|unfoldable|opaque|pub) )*(data |record )?([^\s:(){}]+).*? :")
CASE = re.compile(r"\s+(?:pub )?([\w◌\-'?]+)(?: \(.*\))? :")


@dataclass
class Definition:
    """Where it begins, whether it has a sentence, and whether it is a type whose cases have names."""

    place: int
    has_sentence: bool
    has_cases: bool
    lines: list[Any] = field(default_factory=list)


class Module:
    """A file: its definitions, and what the names mean that it imports or gives to the cases of its types."""

    def __init__(self, path: Any, crates: Any = CRATES):
        self.file = str(path.relative_to(crates))
        self.name = "Rattle." + self.file.removesuffix(".antt").replace("/", ".")
        self.definitions: dict[str, Definition] = {}
        self.names: dict[str, Any] = {}
        self.modules: dict[str, Any] = {}
        self.passed: dict[str, str] = {}
        self.owners: dict[str, Any] = {}
        for place, line, has_sentence, head in headed(path.read_text().splitlines(), self.take):
            if head:
                definition = Definition(place, has_sentence, head[2] == "data ")
                current = self.definitions.setdefault(head[3], definition), head[3]
                self.give(head[3], self.name, head[3])
            if self.definitions:
                self.add(line, *current)

    def take(self, use: re.Match[str]) -> None:
        """What a line `use` imports."""
        for name in use[2].split(", ") if use[2] else ():
            self.give(name.split(" as ")[-1], use[1], name.split(" as ")[0])
        if use[3] and not use[2]:
            self.modules[use[3]] = use[1]
        elif not use[2]:
            self.passed[self.name.removesuffix("Lib") + use[1].split(".")[-1]] = use[1]

    def follow(self, passed: dict[str, str]) -> None:
        """Takes what is imported from a file that a crate passes on from the crate that has it."""
        self.names = {word: (passed.get(at, at), name) for word, (at, name) in self.names.items()}
        self.modules = {word: passed.get(at, at) for word, at in self.modules.items()}

    def give(self, word: str, module: str, name: str) -> None:
        """What a word means, and of an operator also its sign alone."""
        for given in {word, word.strip("◌")}:
            self.names[given] = (module, name)

    def add(self, line: str, definition: Definition, name: str) -> None:
        case = CASE.match(line)
        if definition.has_cases and definition.lines and case:
            self.owners.setdefault(case[1], name)
        definition.lines.append(line)

    def named(self, word: str) -> Optional[tuple[Any, ...]]:
        """The module and the name of what a word, or the first word of a path, stands for, if that is a definition."""
        first, *rest = word.split(".")
        if rest and first in self.modules:
            return self.modules[first], rest[0]
        if first in self.definitions:
            return self.name, first
        if first in self.names:
            return self.names[first]
        return (self.name, self.owners[first]) if first in self.owners else None


def headed(lines: list[Any], take: Callable[..., Any]) -> Iterator[Any]:
    """The lines of definitions: place, line, whether a sentence stands above, and the match of a head, if it is one."""
    is_inside = is_told = False
    for place, line in enumerate(lines, 1):
        if use := USE.match(line):
            take(use)
        elif BLOCK.match(line):
            is_inside = True
            continue
        elif line and not line.startswith(("--", "use ", "pub mod")):
            head = HEAD.match(line)
            head = head if head and (is_inside or not head[1]) else None
            is_inside = is_inside and not (head and not head[1])
            yield place, line, is_told, head
        is_told = line.lstrip().startswith("--")


def modules(crates: Any = CRATES) -> list[Any]:
    """The files of definitions of all crates, in their order."""
    found = [Module(path, crates) for path in sorted(crates.glob("*/specs/**/*.antt"))]
    passed = {alias: module for one in found for alias, module in one.passed.items()}
    for one in found:
        one.follow(passed)
    return found
