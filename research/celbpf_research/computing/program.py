"""The definitions as a program: each is translated when it is first called, and a changed file is put in place of another."""

import contextlib
from typing import Any, Callable, Iterator

from . import natives, values
from .names import Meaning, Names
from .natives import NATIVES
from .sources import Source
from .tokens import NotRead
from .translation import Translation

# as deep as lists are long, since each element may need the next
DEEPEST = 10_000_000


class Program:
    """All definitions; `ran` has the Python names of those that ran."""

    def __init__(self, names: Names):
        self.names = names
        self.keys: dict[Meaning, str] = {}
        self.meanings: dict[str, Meaning] = {}
        self.constants: dict[str, values.Later] = {}
        self.ran: set[str] = set()
        used = "Later Made Record Function Statement Opaque EMPTY Stuck stuck force free applied field_of updated".split()
        self.space: dict[str, Any] = {name: getattr(values, name) for name in used}
        self.space |= {name: getattr(natives, name) for name in ("minus", "divided", "onto", "rest", "power")}
        self.space |= {"NATIVES": NATIVES, "ran": self.ran, "constant": self.constant}

    def key(self, meaning: Meaning) -> str:
        """The Python name of a definition."""
        if meaning not in self.keys:
            key = self.keys[meaning] = f"d{len(self.keys)}"
            self.meanings[key] = meaning
            self.space[key] = self.untranslated(key)
        return self.keys[meaning]

    def untranslated(self, key: str) -> Callable[..., Any]:
        """What stands for a definition until it is called."""

        def first(*arguments: Any) -> Any:
            self.translate(key)
            return self.space[key](*arguments)

        return first

    def translate(self, key: str) -> None:
        meaning = self.meanings[key]
        source = self.names.source(meaning.module)
        assert source
        try:
            text = Translation(self.names, source, self.names.definition(meaning), self.key).function(key)
        except NotRead as reason:
            self.space[key] = self.unread(f"{meaning.name}: {reason}")
            return
        exec(compile(text, f"<{meaning.name}>", "exec"), self.space)

    @staticmethod
    def unread(reason: str) -> Callable[..., Any]:
        def refuse(*arguments: Any) -> Any:
            raise values.Unknown(reason)

        return refuse

    def constant(self, key: str) -> values.Later:
        """The value of a definition without arguments, computed once."""
        if key not in self.constants:
            self.constants[key] = values.Later(lambda: self.space[key]())
        return self.constants[key]

    def value(self, module: str, name: str) -> Any:
        """The value of a definition without arguments."""
        return self.space[self.key(self.names.below(module, name))]()

    def begin(self) -> None:
        """Forgets what was computed, and what ran."""
        self.constants.clear()
        self.ran.clear()

    @contextlib.contextmanager
    def changed(self, module: str, text: str) -> Iterator[None]:
        """The program with another text of a file."""
        before = self.names.source(module)
        assert before
        kept = {key: self.space[key] for key, meaning in self.meanings.items() if meaning.module == module}
        self.names.read[module] = Source(module, before.path, text, self.names.strength)
        self.space |= {key: self.untranslated(key) for key in kept}
        try:
            self.begin()
            yield
        finally:
            self.names.read[module] = before
            self.space |= {key: self.untranslated(key) for key, meaning in self.meanings.items() if meaning.module == module}
            self.space |= kept
            self.begin()
