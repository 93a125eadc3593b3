"""Installs the package into a fresh root, runs what is installed, and removes it again.

usage: tools/run-package [--programs FOLDER] [--library FILE] [--no-library] [--root FOLDER]
       tools/run-package --installed PREFIX

It makes the package by tools/package, twice, each time in a folder of its own, the second time with another umask, time
zone and locale; both are to have the same bytes. In the fresh root nothing else is installed, so what the package
depends on is taken from this machine. Run are the first example, the gatekeeper's example, each subcommand of
vapctl, each man page, the completion, and programs in C, Go, Python and Rust; no page may name a file of the repository or have a link to
nothing, and the version is to be that of `gatekeeper --version`. Then nothing of the package may be left. The tar
archive is unpacked and run too. What is not on this machine, such as Go, is left out, and the last line says so.

FOLDER of `--root` is the root of a Debian system, such as debootstrap makes. The package is also installed there by the
dpkg of that system, so that what the package depends on has to be there, and all is run there as nobody, with the
compilers that are there. After the purge each file of that root is to be as before. This takes root's rights.
`--installed` checks what is installed below a prefix, and installs and removes nothing.
"""

import argparse
import os
import subprocess
import tarfile
import tempfile
from pathlib import Path
from typing import Any, Iterator

from ..entry import parser_of
from ..home import TOOLS
from ..packaging.checking import Checks, Installed, check_library, check_manual, check_programs, check_texts
from ..packaging.rooted import check_in_root

# what a second build has otherwise
OTHERWISE = {"TZ": "Pacific/Kiritimati", "LC_ALL": "C", "PYTHONHASHSEED": "7", "HOME": "/"}


def packages(words: list[Any], folder: Path) -> int:
    """Makes the package in a folder, and again in another; the status of the first that fails."""
    builds: list[tuple[str, int, dict[str, str]]] = [("first", 0o022, {}), ("second", 0o077, OTHERWISE)]
    for name, mask, more in builds:
        made = folder / name
        (made / "tmp").mkdir(parents=True)
        environment = {**os.environ, **more, "TMPDIR": str(made / "tmp")}
        ran = subprocess.run([TOOLS / "package", *words, "--to", made / "dist"], cwd=made, env=environment, umask=mask, check=False)
        if ran.returncode:
            return ran.returncode
    return 0


def check_bytes(checks: Checks, first: Path, second: Path) -> None:
    """Both builds have the same files, byte for byte."""
    for path in sorted(first.iterdir()):
        same = path.read_bytes() == (second / path.name).read_bytes()
        checks.tell(f"{path.name}, made twice", same, "other bytes")


def check_installed(checks: Checks, it: Installed, has_library: bool) -> Iterator[str]:
    """All that is installed below a prefix; yields what is left out."""
    check_programs(checks, it)
    check_texts(checks, it)
    yield from check_manual(checks, it)
    if has_library:
        yield from check_library(checks, it)


def check_package(checks: Checks, deb: Path, root: Path, has_library: bool) -> Iterator[str]:
    """The package, installed into a root and removed; yields what is left out."""
    database = root / "var" / "lib" / "dpkg"
    for folder in ("info", "updates"):
        (database / folder).mkdir(parents=True)
    (database / "status").touch()
    dpkg = ["dpkg", f"--root={root}", "--log=/dev/null", "--force-depends"]
    dpkg += [] if os.geteuid() == 0 else ["--force-not-root"]
    installed = checks.ran([*dpkg, "--install", deb])
    checks.tell("dpkg --install", installed.returncode == 0, installed.stderr)
    version = checks.ran(["dpkg-query", f"--admindir={database}", "-W", "-f", "gatekeeper ${Version}\n", "celbpf"])
    checks.run([root / "usr" / "bin" / "gatekeeper", "--version"], 0, version.stdout)
    yield from check_installed(checks, Installed(root / "usr"), has_library)
    removed = checks.ran([*dpkg, "--purge", "celbpf"])
    kept = (database, *database.parents)
    left = [str(path) for path in root.rglob("*") if not path.is_relative_to(database) and path not in kept]
    checks.tell("dpkg --purge", removed.returncode == 0 and not left, f"{removed.stderr} {left}")


def check_made(checks: Checks, given: argparse.Namespace) -> Iterator[str]:
    """Both archives of the folder `first`, and that those of `second` are the same; yields what is left out."""
    dist = checks.folder / "first" / "dist"
    check_bytes(checks, dist, checks.folder / "second" / "dist")
    deb = next(dist.glob("*.deb"))
    (checks.folder / "root").mkdir()
    if given.no_library:
        yield "the library left out"
    yield from check_package(checks, deb, checks.folder / "root", not given.no_library)
    with tarfile.open(next(dist.glob("*.tar.xz"))) as archive:
        archive.extractall(checks.folder / "tar")
    check_programs(checks, Installed(next((checks.folder / "tar").iterdir())))
    if given.root:
        yield check_in_root(checks, deb, given.root.resolve())


def words() -> argparse.Namespace:
    parser = parser_of(__doc__)
    parser.add_argument("--programs", metavar="FOLDER", type=Path, help="pack the programs, and the library, of this folder")
    parser.add_argument("--library", metavar="FILE", type=Path, help="pack this libcelbpf_c.a")
    parser.add_argument("--no-library", action="store_true", help="leave the library out")
    parser.add_argument("--root", metavar="FOLDER", type=Path, help="install it also in the Debian system of this root")
    parser.add_argument("--installed", metavar="PREFIX", type=Path, help="check what is installed below this prefix alone")
    return parser.parse_args()


def main() -> int:
    given = words()
    packed = ["--no-library"] if given.no_library else []
    for word, path in (("--programs", given.programs), ("--library", given.library)):
        packed += [word, path.resolve()] if path else []
    with tempfile.TemporaryDirectory() as name:
        checks = Checks(Path(name))
        if given.installed:
            it = Installed(given.installed.resolve())
            left_out = list(check_installed(checks, it, (it.prefix / "include" / "celbpf.h").exists()))
        elif status := packages(packed, checks.folder):
            return status
        else:
            left_out = list(check_made(checks, given))
    if checks.wrong:
        print(f"{checks.wrong} of {checks.done} checks of the package are not as they are to be")
        return 1
    print("; ".join([f"all {checks.done} checks of the package are as they are to be", *left_out]))
    return 0
