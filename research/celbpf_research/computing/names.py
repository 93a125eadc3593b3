"""What the words of a file stand for."""

import functools
import re
from pathlib import Path
from typing import Any, NamedTuple, Optional

from celbpf_tools.home import ROOT

from ..mutating.above import kit
from .natives import NATIVES
from .sources import Definition, Source

# the library `std` passes on what these have
STANDARD = ("std", "core", "std_alloc", "std_collections")
OURS = ("Rattle.core.", "Rattle.std")
# a module of another crate that a crate passes on
PASSED = re.compile(r"^pub use (Rattle\.[\w.]+)$", re.M)


class Meaning(NamedTuple):
    """What a word stands for: a `function` or `record` of a module, a `constructor`, a `module`, a `type`, or `native`."""

    kind: str
    module: str
    name: str


class Names:
    """The files of definitions, each read when it is first named; `changed` has other texts of some."""

    def __init__(self, crates: Path = ROOT / "crates"):
        self.crates = crates
        self.changed: dict[str, str] = {}
        self.read: dict[str, Optional[Source]] = {}

    @functools.cache
    def passed(self, crate: str) -> dict[str, str]:
        """The modules that a crate passes on from crates below, by the names that they have here."""
        lib = self.crates / crate / "specs" / "Lib.antt"
        found = PASSED.findall(lib.read_text(encoding="utf-8")) if lib.exists() else []
        return {f"Rattle.{crate}.specs.{module.rpartition('.')[2]}": module for module in found}

    def path(self, module: str) -> Optional[Path]:
        """The file of a module, of this repository or of the toolchain's crates."""
        parts = module.split(".")
        if parts[0] != "Rattle" or len(parts) < 4 or parts[2] != "specs" or "declared" in parts:
            return None
        of_kit = [kit() / "rattle" / name for name in (STANDARD if parts[1] == "std" else parts[1:2])]
        crates = of_kit if parts[1] == "std" else [self.crates / parts[1], *of_kit]
        files = [Path(f"{crate.joinpath('specs', *parts[3:])}.antt") for crate in crates]
        return next((file for file in files if file.exists()), None)

    def owner(self, module: str) -> str:
        """The module itself, or that of a crate below which is passed on under this name."""
        parts = module.split(".")
        is_own = parts[0] == "Rattle" and len(parts) == 4 and parts[2] == "specs"
        return self.passed(parts[1]).get(module, module) if is_own else module

    def source(self, module: str) -> Optional[Source]:
        """The file of a module, read once."""
        if module not in self.read:
            path = self.path(module)
            text = self.changed.get(module) or (path.read_text(encoding="utf-8") if path else "")
            self.read[module] = Source(module, path, text, self.strength) if path else None
        return self.read[module]

    def strength(self, module: str, sign: str) -> Optional[tuple[Any, ...]]:
        """The strength of an operator of a module."""
        source = self.source(module)
        return source.strengths.get(sign) if source else None

    def definition(self, meaning: Meaning) -> Definition:
        """The definition that a word stands for."""
        source = self.source(meaning.module)
        assert source
        return source.definitions[meaning.name]

    def below(self, module: str, name: str, seen: frozenset[Any] = frozenset()) -> Meaning:
        """What a name of a module stands for."""
        module = self.owner(module)
        source = self.source(module)
        if source:
            return self.meaning(source, name, seen)
        if ".declared" not in module:
            return Meaning("module", f"{module}.{name}", name) if self.path(f"{module}.{name}") else Meaning("native", module, name)
        if module.endswith("TheVariants"):
            return Meaning("constructor", module, name)
        is_type = name[:1].isupper() and name != "TheVariants"
        return Meaning("type" if is_type else "module", f"{module}.{name}", name)

    def meaning(self, source: Source, name: str, seen: frozenset[Any] = frozenset()) -> Meaning:
        """What a word of a file stands for; what the toolchain computes goes before its definition."""
        found = self.declared(source, name, seen)
        return Meaning("native", "", name) if found.kind == "native" and found.name not in NATIVES and name in NATIVES else found

    def declared(self, source: Source, name: str, seen: frozenset[Any]) -> Meaning:
        for word in (name, f"◌{name}◌"):
            if word in source.definitions:
                is_native = word in NATIVES and source.name.startswith(OURS)
                return Meaning("native" if is_native else source.definitions[word].kind, source.name, word)
        if name in source.constructors:
            return Meaning("constructor", source.name, name)
        if name in source.words and (source.name, name) not in seen:
            return self.imported(*source.words[name], seen | {(source.name, name)})
        module = f"{source.name}.{name}"
        return Meaning("module", module, name) if self.path(module) else Meaning("native", source.name, name)

    def imported(self, module: str, name: Optional[str], seen: frozenset[Any]) -> Meaning:
        """What an import brings: a name of a module, or a module, which may be a name of the one above it."""
        if name:
            return self.below(module, name, seen)
        above, _, last = module.rpartition(".")
        if not self.path(module) and ".declared" not in module and self.path(above):
            return self.below(above, last, seen)
        return Meaning("module", module, last)

    def along(self, source: Source, path: tuple[str, ...]) -> tuple[Meaning, tuple[str, ...]]:
        """What the beginning of a path stands for, and the fields that follow."""
        found, at = self.meaning(source, path[0]), 1
        while at < len(path) and found.kind in ("module", "data"):
            found = self.below(found.module, path[at]) if found.kind == "module" else Meaning("constructor", found.module, path[at])
            at += 1
        return found, path[at:]
