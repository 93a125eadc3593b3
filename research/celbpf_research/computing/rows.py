"""The literal rows of the crates, and what each says of a definition or of a change of one."""

import re
import signal
import sys
import time
from dataclasses import dataclass, field
from pathlib import Path
from typing import Any, Iterator, Optional

from celbpf_tools.definitions import CRATES

from ..mutating import pins
from .deciding import is_true
from .names import Names
from .program import DEEPEST, Program
from .sources import Source
from .values import Statement, Stuck, Unknown

CLAUSE = re.compile(r"ensures \w* ?\{ (.*) \}$", re.M)
FAULTS = (Stuck, Unknown, AttributeError, IndexError, KeyError, TypeError, ValueError)


class TooLong(Exception):
    """More time was needed than there was."""


@dataclass
class Row:
    """A row: the definition that has it and its place there, or none if that is the row; what it ran, and in what time."""

    crate: str
    module: str
    name: str
    place: Optional[int]
    label: str
    answer: Any = None
    seconds: float = 0
    ran: frozenset[Any] = field(default_factory=frozenset)

    @property
    def told(self) -> str:
        return f"{self.crate} {self.label}"


def stop(*_: Any) -> None:
    raise TooLong


class Rows:
    """The rows of all crates, computed as they stand."""

    def __init__(self, crates: Path = CRATES):
        sys.setrecursionlimit(DEEPEST)
        signal.signal(signal.SIGVTALRM, stop)
        self.program = Program(Names(crates))
        self.all = [row for crate in sorted(crates.iterdir()) if crate.is_dir() for row in self.of_crate(crate)]

    def of_crate(self, crate: Path) -> Iterator[Row]:
        for module, text in pins.files(crate):
            imported = pins.imported(text)
            uses = [line.removeprefix("ghost ").removesuffix(";") for line in text.splitlines() if line.startswith("ghost use")]
            terms = [(name, term) for name, clauses in pins.LAW.findall(text) if pins.is_rows(name) for term in CLAUSE.findall(clauses)]
            at = f"{crate.name}.{module}"
            lines = [line for place, (_, term) in enumerate(terms) for line in (f"row_{place} : ℕ", f"row_{place} = {term}")]
            self.program.names.read[at] = Source(at, None, "\n".join([*uses, *lines]), self.program.names.strength)
            for place, (name, term) in enumerate(terms):
                rows = list(self.fields(crate.name, *imported[term])) if term in imported else []
                yield from rows or [Row(crate.name, at, f"row_{place}", None, name)]

    def fields(self, crate: str, module: str, name: str) -> Iterator[Row]:
        """The fields of a record of rows, and for a field that is such a record, the fields of that."""
        source = self.program.names.source(module)
        found = source.definitions.get(name) if source else None
        if not source or not found or found.kind != "record" or found.parameters:
            return
        for place, (label, tokens) in enumerate(found.fields):
            meant = self.program.names.meaning(source, tokens[0].value) if [it.kind for it in tokens] == ["name"] else None
            inner = list(self.fields(crate, meant.module, meant.name)) if meant else []
            yield from inner or [Row(crate, module, name, place, f"{name}.{label}")]

    def answer(self, row: Row, seconds: float) -> Any:
        """Whether a row is true: yes, no, or nothing."""
        signal.setitimer(signal.ITIMER_VIRTUAL, seconds)
        try:
            found = self.program.value(row.module, row.name)
            if row.place is None:
                return is_true(found)
            return is_true(found.parts[row.place]) if found.__class__ is Statement else None
        except (*FAULTS, TooLong):
            return None
        finally:
            signal.setitimer(signal.ITIMER_VIRTUAL, 0)

    def compute(self, row: Row, seconds: float) -> None:
        """Enters what a row says as the definitions stand."""
        self.program.begin()
        began = time.process_time()
        row.answer = self.answer(row, seconds)
        row.seconds = time.process_time() - began
        meanings = (self.program.meanings[key] for key in self.program.ran)
        row.ran = frozenset((meaning.module, meaning.name) for meaning in meanings)

    def against(self, definition: tuple[str, str], crate: str, text: str, seconds: float) -> tuple[Optional[Row], int]:
        """The first row that is false with this text of the definition's file, its crate's first; and how many ran it."""
        of = [row for row in self.all if row.answer is True and definition in row.ran]
        of.sort(key=lambda row: (row.crate != crate, row.seconds))
        with self.program.changed(definition[0], text):
            for row in of:
                self.program.begin()
                if self.answer(row, max(seconds, 4 * row.seconds)) is False:
                    return row, len(of)
        return None, len(of)
