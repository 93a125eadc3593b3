"""The archive and the shared library, from the proved static library."""

import os
import shutil
import subprocess
import tempfile
from pathlib import Path
from typing import Any

from ..entry import Stop
from ..home import ROOT
from ..packaging.archives import version_of

EMBED = ROOT / "embed"
CRATE = ROOT / "crates" / "celbpf_c"
MISSING, NOT_BUILT = 10, 13
FLAGS = ["-std=c11", "-O2", "-fPIC", "-Wall", "-Wextra", "-Werror"]
# the shared library's name changes with the interface
SHARED = "libcelbpf.so.1"
WHOLE = "-Wl,--whole-archive", "-Wl,--no-whole-archive"


def needed(command: str) -> str:
    if not shutil.which(command):
        raise Stop(f"there is no command {command} in the path", MISSING)
    return command


def compiler() -> str:
    return needed(os.environ.get("CC", "cc"))


def ran(words: list[Any], folder: Path = ROOT) -> str:
    """What a command writes; it ends the script if it fails."""
    done = subprocess.run([str(word) for word in words], cwd=folder, capture_output=True, text=True, check=False)
    if done.returncode:
        raise Stop(f"{words[0]} failed: {(done.stderr or done.stdout).strip()}", NOT_BUILT)
    return done.stdout


def built_library() -> Path:
    """The static library of the crate, proved and built if it is behind."""
    needed("rt")
    print("proving and building celbpf_c, if it is not up to date; from nothing that takes many minutes", flush=True)
    ran(["rt", "lib"], CRATE)
    return CRATE / "out" / "libcelbpf_c.a"


def object_of(library: Path, folder: Path) -> Path:
    """The library with its heap and the checked calls as one object, in which only the names of the interface are global."""
    cc, whole = compiler(), folder / "celbpf.o"
    for name in ("heap", "checked"):
        ran([cc, *FLAGS, "-I", EMBED / "c", "-c", EMBED / "c" / f"{name}.c", "-o", folder / f"{name}.o"])
    ran([cc, "-r", "-nostdlib", "-o", whole, WHOLE[0], library, WHOLE[1], folder / "heap.o", folder / "checked.o"])
    ran([needed("objcopy"), "--wildcard", "--keep-global-symbol=celbpf_*", whole])
    return whole


def shared(archive: Path, target: Path) -> None:
    """The shared library. It is independent of its position, needs no more than the C library, and shows the interface."""
    script = EMBED / "c" / "celbpf.map"
    flags = [f"-Wl,-soname,{SHARED}", f"-Wl,--version-script={script}", "-Wl,-z,defs", "-Wl,-z,text", "-Wl,-z,noexecstack"]
    ran([compiler(), "-shared", "-o", target / SHARED, *flags, WHOLE[0], archive, WHOLE[1], "-pthread"])
    link = target / "libcelbpf.so"
    link.unlink(missing_ok=True)
    link.symlink_to(SHARED)
    shown = {line.split()[-1] for line in ran(["nm", "-D", "--defined-only", target / SHARED]).splitlines()}
    if other := {name for name in shown if not name.startswith("celbpf_")}:
        raise Stop(f"{SHARED} shows other names: {' '.join(sorted(other))}", NOT_BUILT)


def made(library: Path, dist: Path) -> None:
    """All files, below this folder."""
    for name in ("lib/pkgconfig", "include"):
        (dist / name).mkdir(parents=True, exist_ok=True)
    archive = dist / "lib" / "libcelbpf.a"
    with tempfile.TemporaryDirectory() as folder:
        whole = object_of(library.resolve(), Path(folder))
        archive.unlink(missing_ok=True)
        ran([needed("ar"), "rcsD", archive, whole])
    shared(archive, dist / "lib")
    shutil.copy(EMBED / "c" / "celbpf.h", dist / "include" / "celbpf.h")
    text = (EMBED / "c" / "celbpf.pc.in").read_text()
    (dist / "lib" / "pkgconfig" / "celbpf.pc").write_text(text.replace("@VERSION@", version_of()))


def installed(dist: Path, prefix: Path) -> None:
    """Copies what was made below a prefix, with the sources of the packages."""
    for name in ("lib/libcelbpf.a", f"lib/{SHARED}", "lib/libcelbpf.so", "lib/pkgconfig/celbpf.pc", "include/celbpf.h"):
        target = prefix / name
        target.parent.mkdir(parents=True, exist_ok=True)
        target.unlink(missing_ok=True)
        shutil.copy(dist / name, target, follow_symlinks=False)
    for name in ("go", "python", "rust"):
        sources = prefix / "share" / "celbpf" / name
        shutil.rmtree(sources, ignore_errors=True)
        shutil.copytree(EMBED / name, sources, ignore=shutil.ignore_patterns("__pycache__", "target", "*.egg-info"))
