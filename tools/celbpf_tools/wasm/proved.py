"""The LLVM module of the proved static library.

`rt lib` proves it, if it is behind. Then `rattle build`, over what that kept, makes it again with a toolchain whose
compiler keeps the module that it is given. It makes nothing unless the crate is proved.
"""

import shlex
from pathlib import Path
from typing import Any, Callable

from ..quick.halves import Differs
from ..quick.native import tools_beside
from ..quick.sources import below, listed

CRATE = "celbpf_page"
KEEPING = """#!/bin/sh
for word; do case $word in *.bc) cp "$word" {kept} ;; esac; done
exec {compiler} "$@"
"""
# the default processor has code that no other machine has
HOW = ["--crate-type", "staticlib", "--backend", "llvm", "--cpu", "x86-64", "--incremental", "out/incremental"]


def words_of(crate: Path, kit: Path) -> list[Any]:
    """The words that name the crate's source, and the built libraries that it uses."""
    root = crate.parent.parent
    crates = listed(root)
    words: list[Any] = ["--crate-name", crate.name, "src/lib.rt"]
    for name in dict.fromkeys(["std", *crates[crate.name]]):
        words += ["--extern", f"{name}={folder_of(name, root, kit, crates) / f'{name}.rlib'}"]
    for folder in [kit / "rlibs", *(folder_of(name, root, kit, crates) for name in below(crate.name, crates, []))]:
        words += ["-L", f"dependency={folder}"]
    for name in [crate.name, *below(crate.name, crates, [])]:
        words += ["--links", f"{name}="]
    return [*words, "--antt-project", kit / "rattle" / "logic" / "antt-project.json", "--logic-built", kit / "logic_built"]


def folder_of(name: str, root: Path, kit: Path, crates: dict[str, Any]) -> Path:
    """The folder of a built library, of the repository or of the toolchain."""
    return root / "crates" / name / "out" / "rlib" if name in crates else kit / "rlibs"


def module_of(crate: Path, kit: Path, folder: Path, ran: Callable[..., Any]) -> Path:
    """The module, in this folder, of the library as it is proved."""
    kept = folder / "proved.bc"
    compiler = kit / "toolchain" / "bin" / "clang"
    script = KEEPING.format(kept=shlex.quote(str(kept)), compiler=shlex.quote(str(compiler)))
    toolchain = tools_beside(kit, folder / "proved", "clang", script)
    words = [kit / "bin" / "rattle", "build", *words_of(crate, kit), *HOW, "--toolchain", toolchain, "-o", folder / "proved.a"]
    status, said = ran([words], crate, {})
    if status or not kept.is_file():
        raise Differs(said)
    return kept
