"""The WebAssembly module of an LLVM module for wasm64, with the heap and the exports of `embed/wasm`."""

import shlex
import shutil
import subprocess
from pathlib import Path
from typing import Any, Callable, Optional

from ..home import ROOT
from ..quick.halves import Differs
from ..quick.native import tools_beside
from .modules import TARGET

EMBED = ROOT / "embed" / "wasm"
PARTS = ("heap", "calls")
# the memory may grow so far; in the lowered module addresses below the stack's end are above this
MEMORY = 1 << 31
STACK = 8 << 20
CPU = ["-mcpu=lime1", "-msimd128"]
C = ["-std=c11", "-O2", "-Wall", "-Wextra", "-Werror", "-ffreestanding", "-nostdinc", "-fno-builtin"]
SECTIONS = ["-ffunction-sections", "-fdata-sections"]
# as the toolchain compiles for wasm64
IR = [
    "-mllvm", "-expand-div-rem-bits=64", "-mllvm", "-expand-fp-convert-bits=64", "-mllvm", "-trap-unreachable", "-mllvm",
    "-disable-machine-licm", "-mllvm", "-disable-postra-machine-licm", "-mllvm", "-sink-common-insts=false", "-Werror",
]
OWN = ["--no-default-config", "-no-canonical-prefixes", "-fintegrated-cc1", "-fno-crash-diagnostics"]
LINKER = """#!/bin/sh
exec {linker} "$@" {parts} --max-memory={memory}
"""
# 108, of Debian 12, knows no table of a 64-bit memory
OLDEST = 120
FEATURES = [
    "memory64", "bulk-memory", "multivalue", "sign-ext", "mutable-globals", "extended-const", "nontrapping-float-to-int",
    "reference-types", "simd",
]


def object_of(module: Path, level: str, kit: Path, folder: Path, ran: Callable[..., Any]) -> Path:
    """The object file of a module in LLVM's text."""
    made = folder / "calls_proved.o"
    words = [kit / "toolchain" / "bin" / "clang", f"--target={TARGET}", *CPU, *OWN, *SECTIONS, *IR, level]
    done(ran, [[*words, "-c", "-x", "ir", module, "-o", made]], folder)
    return made


def parts_of(kit: Path, folder: Path, ran: Callable[..., Any]) -> list[Any]:
    """The object files of the heap and of the exports."""
    made = [folder / f"{name}.o" for name in PARTS]
    for name, file in zip(PARTS, made):
        words = [kit / "toolchain" / "bin" / "clang", f"--target={TARGET}", *CPU, *OWN, *SECTIONS, *C]
        done(ran, [[*words, "-c", EMBED / f"{name}.c", "-o", file]], folder)
    return made


def linked(compiled: Path, kit: Path, folder: Path, ran: Callable[..., Any]) -> Path:
    """The WebAssembly module, in this folder, by the toolchain's linker, which is given more files and a bound."""
    parts = " ".join(shlex.quote(str(part)) for part in parts_of(kit, folder, ran))
    linker = shlex.quote(str(kit / "toolchain" / "bin" / "ld.lld"))
    script = LINKER.format(linker=linker, parts=parts, memory=MEMORY)
    toolchain = tools_beside(kit, folder / "linked", "ld.lld", script)
    archive, made = folder / "calls.a", folder / "celbpf.wasm"
    done(ran, [[kit / "toolchain" / "bin" / "llvm-ar", "rc", archive, compiled]], folder)
    words = [kit / "bin" / "rattle-link", "--target", TARGET, "--toolchain", toolchain, "--stack", STACK, "-o", made, archive]
    done(ran, [words], folder)
    return made


def lowering() -> Optional[str]:
    """The program that lowers a module to wasm32, if there is one that can."""
    found = shutil.which("wasm-opt")
    if not found:
        return None
    said = subprocess.run([found, "--version"], capture_output=True, text=True).stdout.split()
    numbers = [int(word) for word in said if word.isdigit()]
    return found if numbers and numbers[0] >= OLDEST else None


def lowered(module: Path, program: str, ran: Callable[..., Any]) -> Path:
    """The module for engines without 64-bit memories, beside it."""
    made = module.with_name("celbpf32.wasm")
    flags = [f"--enable-{one}" for one in FEATURES]
    done(ran, [[program, *flags, "--memory64-lowering", module, "-o", made]], module.parent)
    return made


def done(ran: Callable[..., Any], commands: list[Any], folder: Path) -> None:
    """Runs commands, which have to succeed."""
    status, said = ran(commands, folder, {})
    if status:
        raise Differs(said)
