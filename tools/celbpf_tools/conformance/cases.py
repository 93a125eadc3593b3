"""The cases of cel-spec's data: an expression, the values of its names, and what it evaluates to."""

from dataclasses import dataclass
from pathlib import Path
from typing import Iterator, Optional

from .textproto import Message, read

ERRORS = ("eval_error", "any_eval_errors")
UNKNOWNS = ("unknown", "any_unknowns")


@dataclass
class Case:
    """A case with its message; `name` has the file, the section and the case."""

    name: str
    message: Message

    @property
    def expression(self) -> str:
        return self.message.one("expr", "")

    def is_set(self, flag: str) -> bool:
        """Whether a flag of the case is true, as `disable_macros`."""
        return self.message.one(flag) == "true"

    @property
    def bindings(self) -> dict[str, Message]:
        """What each bound name has: a message with a value, an error or an unknown."""
        return {one.one("key"): one.one("value") for one in self.message.all("bindings")}

    @property
    def wants_error(self) -> bool:
        return any(self.message.all(field) for field in ERRORS)

    @property
    def wants_unknown(self) -> bool:
        return any(self.message.all(field) for field in UNKNOWNS)

    @property
    def value(self) -> Optional[Message]:
        """The value that is wanted; `None` if none is given, which means true."""
        typed = self.message.one("typed_result")
        return typed.one("result") if typed else self.message.one("value")


def cases_in(path: Path) -> Iterator[Case]:
    """The cases of one file, in its order."""
    file = read(path.read_text(encoding="utf-8"))
    for section in file.all("section"):
        for test in section.all("test"):
            yield Case("/".join((file.one("name", path.stem), section.one("name", ""), test.one("name", ""))), test)


def cases_of(folder: Path) -> Iterator[Case]:
    """The cases of a folder's files, in the order of their names."""
    for path in sorted(folder.glob("*.textproto")):
        yield from cases_in(path)
