"""Changes drawn from a seed, out of the definitions that a contract rests on."""

import random
from dataclasses import dataclass
from typing import Iterator, Optional

from celbpf_tools.commands.belief import CONTRACTS, rests_on
from celbpf_tools.definitions import CRATES, Module, modules

from .change import Change
from .changes import of_definition


@dataclass(frozen=True)
class Drawn:
    """A change, with the definition that it changes: `file` is below the folder of the crates."""

    file: str
    name: str
    change: Change

    @property
    def crate(self) -> str:
        return self.file.split("/")[0]

    @property
    def definition(self) -> tuple[str, str]:
        """The module and the name of the definition."""
        return "Rattle." + self.file.removesuffix(".antt").replace("/", "."), self.name

    @property
    def told(self) -> str:
        """The change on a line, without the number of its place, which moves."""
        old, new = (" / ".join(line.strip() for line in lines) for lines in (self.change.old, self.change.new))
        return f"{self.file} {self.name} {self.change.kind}: {old} => {new or '(left out)'}"


def read_all() -> dict[str, Module]:
    """The files of definitions by the names of their modules."""
    return {module.name: module for module in modules()}


def believed(read: dict[str, Module]) -> list[tuple[str, int, int, str]]:
    """The definitions of the list: file, line, how many lines, name."""
    found = set().union(*(rests_on(read, *contract) for contract in CONTRACTS))
    of = [(read[at].file, read[at].definitions[name], name) for at, name in found]
    return sorted((file, it.place, len(it.lines), name) for file, it, name in of)


def changes(read: dict[str, Module], crates: list[str], only: Optional[tuple[str, str]] = None) -> dict[tuple[str, str], list[Change]]:
    """The changes of each definition of the list in these crates, or in all; of one alone, if one is given."""
    found = {}
    for file, place, size, name in believed(read):
        if (not crates or file.split("/")[0] in crates) and only in (None, (file, name)):
            found[file, name] = of_definition((CRATES / file).read_text(encoding="utf-8"), place, size, name)
    return found


def again(read: dict[str, Module], told: str) -> list[Drawn]:
    """The changes that survived or were undecided by the lines of an earlier run, of those that there still are."""
    lines = [line.partition(": ") for line in told.splitlines() if line.startswith(("survived ", "undecided "))]
    wanted = {change for _, _, change in lines}
    every = (Drawn(*definition, change) for definition, of in changes(read, []).items() for change in of)
    return [one for one in every if one.told in wanted]


def drawn(left: dict[tuple[str, str], list[Change]], seed: int) -> Iterator[Drawn]:
    """Changes without end from a seed: a definition is drawn first, then the kind of the change, then the change.

    None comes twice, and none at all where a definition has no changes left.
    """
    numbers = random.Random(seed)
    left = {definition: list(of) for definition, of in left.items()}
    while any(left.values()):
        file, name = numbers.choice([key for key in left if left[key]])
        kind = numbers.choice(sorted({change.kind for change in left[file, name]}))
        change = numbers.choice([change for change in left[file, name] if change.kind == kind])
        left[file, name].remove(change)
        yield Drawn(file, name, change)
