"""A Debian package and a tar archive of a tree: the same bytes for the same sources and programs."""

import io
import os
import platform
import re
import shutil
import subprocess
import tarfile
from pathlib import Path
from typing import Any

from ..entry import Stop
from ..home import ROOT

ARCHES = {"x86_64": "amd64", "aarch64": "arm64"}
VERSION = re.compile(r'"gatekeeper ([0-9.]+)\\n"')
GLIBC = re.compile(rb"GLIBC_2\.([0-9]+)")
CONTROL = """Package: celbpf
Version: {version}
Architecture: {arch}
Maintainer: the celbpf project <celbpf@example.invalid>
Section: admin
Priority: optional
Installed-Size: {size}
Depends: {libc}, python3 (>= 3.10)
Recommends: python3-yaml
Suggests: bash-completion, zsh, man-db, gcc, pkg-config, golang, cargo
Description: decides Kubernetes admission without a webhook
 Compiles ValidatingAdmissionPolicy documents to BPF programs, runs them on a BPF
 machine, answers reviews, and debugs a decision step by step. It has programs,
 vapctl, and a library for C, Go, Python and Rust. README.md says what is proved.
"""
SHARED = "lib/libcelbpf.so.1"


def version_of() -> str:
    """The version: the one that the sources of `gatekeeper --version` print."""
    found = VERSION.search((ROOT / "crates" / "gatekeeper_runner" / "src" / "about.rt").read_text())
    if not found:
        raise Stop("the sources of gatekeeper have no version")
    return found[1]


def checked_version(gatekeeper: Path) -> str:
    """The version, which this program prints too."""
    ran = subprocess.run([gatekeeper, "--version"], capture_output=True, text=True, check=False)
    version = version_of()
    if ran.stdout != f"gatekeeper {version}\n":
        raise Stop(f"{gatekeeper} is {ran.stdout.strip() or 'of no version'}, and the sources are gatekeeper {version}")
    return version


def arch_of() -> str:
    machine = platform.machine()
    return ARCHES.get(machine, machine)


def libc_of(files: list[Any]) -> str:
    """What of the C library programs and libraries need, as a dependency."""
    least = max((int(minor) for path in files for minor in GLIBC.findall(path.read_bytes())), default=0)
    return f"libc6 (>= 2.{least})" if least else "libc6"


def epoch_of() -> int:
    """The time of the files: SOURCE_DATE_EPOCH, or that of the last commit, or 0."""
    if given := os.environ.get("SOURCE_DATE_EPOCH", ""):
        return int(given)
    ran = subprocess.run(["git", "log", "-1", "--format=%ct"], cwd=ROOT, capture_output=True, text=True, check=False)
    return int(ran.stdout) if ran.returncode == 0 and ran.stdout.strip() else 0


def size_of(folder: Path) -> int:
    """The size of a tree in KiB, as Debian counts it."""
    return sum(-(-path.lstat().st_size // 1024) for path in folder.rglob("*") if not path.is_dir())


def deb(root: Path, version: str, epoch: int, target: Path) -> None:
    """The Debian package of a tree whose `usr` is planted; its files have the time `epoch`."""
    if not shutil.which("dpkg-deb"):
        raise Stop("there is no command dpkg-deb; --tar makes the tar archive alone", 10)
    control = root / "DEBIAN"
    control.mkdir(mode=0o755)
    linked = [root / "usr" / "bin" / name for name in ("celbpf", "gatekeeper")]
    if (root / "usr" / SHARED).exists():
        linked.append(root / "usr" / SHARED)
        written(control / "triggers", "activate-noawait ldconfig\n")
    text = CONTROL.format(version=version, arch=arch_of(), size=size_of(root / "usr"), libc=libc_of(linked))
    written(control / "control", text)
    for folder in (root, control):
        folder.chmod(0o755)
    dated(root, epoch)
    # xz by several threads packs other bytes than by one
    environment = {**os.environ, "SOURCE_DATE_EPOCH": str(epoch), "DPKG_DEB_THREADS_MAX": "1"}
    words = ["dpkg-deb", "--root-owner-group", "-Zxz", "--build", str(root), str(target)]
    ran = subprocess.run(words, env=environment, capture_output=True, text=True, check=False)
    if ran.returncode:
        raise Stop(f"dpkg-deb: {ran.stderr.strip()}")
    shutil.rmtree(control)


def written(path: Path, text: str) -> None:
    path.write_text(text)
    path.chmod(0o644)


def dated(root: Path, epoch: int) -> None:
    """Gives all files one time."""
    for path in [root, *root.rglob("*")]:
        os.utime(path, (epoch, epoch), follow_symlinks=False)


def tar(prefix: Path, name: str, epoch: int, target: Path) -> None:
    """A tar archive of a prefix, under a folder of this name; its files have the time `epoch`."""

    def plain(member: tarfile.TarInfo) -> tarfile.TarInfo:
        member.uid = member.gid = 0
        member.uname = member.gname = "root"
        member.mtime = epoch
        return member

    packed = io.BytesIO()
    with tarfile.open(fileobj=packed, mode="w:xz") as archive:
        for path in sorted(prefix.rglob("*")):
            archive.add(path, f"{name}/{path.relative_to(prefix)}", recursive=False, filter=plain)
    target.write_bytes(packed.getvalue())
