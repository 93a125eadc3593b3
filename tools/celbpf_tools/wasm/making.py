"""Makes the module, unless it is there and up to date, and keeps it beside what it was made from."""

import hashlib
import os
import shutil
import subprocess
import sys
import tempfile
import time
from pathlib import Path
from typing import Any, Callable

from ..entry import Stop
from ..home import ROOT, TOOLS
from ..quick.halves import Differs
from ..quick.native import AS_TEXT, kit_of
from .linking import EMBED, linked, lowered, lowering, object_of
from .modules import calls_of_program, for_wasm
from .proved import CRATE, module_of
from .unproved import unproved_module

NO_RT, NOT_BUILT = 10, 13
NAMES = ("celbpf.wasm", "celbpf32.wasm")
# the files beside this one that say how it is made
MAKERS = ("linking", "making", "modules", "proved", "unproved")
UNPROVED = "it is made of these sources without checking their proofs, in some two minutes"
Ran = Callable[..., Any]


def place(is_quick: bool) -> Path:
    """The folder of the module that is proved, or of the one that is not."""
    return ROOT / "crates" / CRATE / "out" / ("quick" if is_quick else "wasm")


def made_from(is_quick: bool) -> str:
    """A digest of what the module is made from, and the toolchain."""
    asked = subprocess.run([TOOLS / "sources", CRATE], capture_output=True, text=True, check=True)
    everything, compiled, toolchain = asked.stdout.strip().split(" ", 2)
    own = [*sorted(EMBED.glob("*.c")), *(Path(__file__).with_name(f"{name}.py") for name in MAKERS)]
    parts = hashlib.sha256(b"".join(file.read_bytes() for file in own)).hexdigest()
    return f"{compiled if is_quick else everything} {parts} {toolchain}\n"


def say(line: str) -> None:
    print(f"wasm: {line}", file=sys.stderr, flush=True)


def ran(commands: list[Any], folder: Path, more: dict[str, Any]) -> tuple[Any, ...]:
    """The status of the first command that fails, or 0, and what they said."""
    said = ""
    for words in commands:
        how: dict[str, Any] = {"stdin": subprocess.DEVNULL, "stdout": subprocess.PIPE, "stderr": subprocess.STDOUT}
        done = subprocess.run([str(word) for word in words], cwd=folder, env={**os.environ, **more}, **how)
        said += done.stdout.decode(errors="replace")
        if done.returncode:
            return done.returncode, said
    return 0, said


def in_text(module: Path, kit: Path, folder: Path) -> Path:
    """The module in LLVM's text."""
    made = folder / "used.bc"
    if module != made:
        shutil.copy(module, made)
    status, said = ran([[kit / "toolchain" / "bin" / "clang", *AS_TEXT, "-o", "module.ll"]], folder, {})
    if status:
        raise Differs(said)
    return folder / "module.ll"


def compiled(is_quick: bool, kit: Path, folder: Path) -> Path:
    """The module, in this folder."""
    crate = ROOT / "crates" / CRATE
    given = unproved_module(crate, kit, folder, ran) if is_quick else module_of(crate, kit, folder, ran)
    text = folder / "wasm.ll"
    with in_text(given, kit, folder).open() as lines, text.open("w") as made:
        made.writelines(for_wasm(calls_of_program(lines) if is_quick else lines))
    return linked(object_of(text, "-O2" if is_quick else "-O3", kit, folder, ran), kit, folder, ran)


def prove() -> None:
    """Proves and builds the static library and what is below it, if they are behind."""
    status, said = ran([["rt", "lib"]], ROOT / "crates" / CRATE, {})
    if status:
        print(said, end="", file=sys.stderr)
        raise Stop(f"{CRATE} is not proved; the lines above say why", NOT_BUILT)


def make(is_quick: bool) -> Path:
    """Makes the module of the sources as they are; its file."""
    if not shutil.which("rt"):
        raise Stop("there is no command rt in the path; it comes with the toolchain", NO_RT)
    to = place(is_quick)
    to.mkdir(parents=True, exist_ok=True)
    began, source = time.monotonic(), made_from(is_quick)
    record = to / "wasm.built"
    if not (record.is_file() and record.read_text() == source and (to / NAMES[0]).is_file()):
        say(UNPROVED if is_quick else f"proving and building {CRATE} first, if it is not up to date; from nothing that takes many minutes")
        if not is_quick:
            prove()
        record.unlink(missing_ok=True)
        (to / NAMES[1]).unlink(missing_ok=True)
        with tempfile.TemporaryDirectory() as folder:
            keep(compiled(is_quick, kit_of("rt"), Path(folder).resolve()), to / NAMES[0])
        record.write_text(source)
        say(f"made in {time.monotonic() - began:.0f} seconds")
    lower(to)
    return to / NAMES[0]


def lower(to: Path) -> None:
    """Lowers the module beside it, if that can be done and was not."""
    program = lowering()
    if program is None:
        say("there is no wasm-opt that lowers it to a 32-bit memory; Debian's package binaryen has one from version 120 on")
    elif not (to / NAMES[1]).is_file():
        with tempfile.TemporaryDirectory() as folder:
            copy = Path(shutil.copy(to / NAMES[0], folder))
            keep(lowered(copy, program, ran), to / NAMES[1])


def keep(made: Path, to: Path) -> None:
    """Puts a file in its place at once."""
    beside = to.with_suffix(".new")
    shutil.copy(made, beside)
    os.replace(beside, to)
