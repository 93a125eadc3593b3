"""A package in the root of a Debian system: the dpkg there installs it, all checks run there as nobody, and it is purged."""

import hashlib
import os
import shutil
import stat
import subprocess
from pathlib import Path
from typing import Any

from ..home import TOOLS
from .checking import Checks

# where the package and the checks are in the root meanwhile
PLACE = Path("tmp", "celbpf-check")
# what dpkg and its triggers keep for themselves: the database, logs, and caches of libraries and man pages
OF_DPKG = ("var/lib/dpkg", "var/log", "var/cache/man", "var/cache/ldconfig", "etc/ld.so.cache")
NOBODY = ("--setuid=65534", "--setgid=65534")


def told(path: Path) -> str:
    """What a file of a root is: its mode, its owner, and what it holds."""
    found = path.lstat()
    holds = ""
    if stat.S_ISLNK(found.st_mode):
        holds = os.readlink(path)
    elif stat.S_ISREG(found.st_mode):
        holds = hashlib.sha256(path.read_bytes()).hexdigest()
    return f"{found.st_mode:o} {found.st_uid} {found.st_gid} {holds}"


def contents(root: Path) -> dict[str, Any]:
    """All files of a root but those that dpkg keeps for itself."""
    found = {}
    for at, folders, names in os.walk(root):
        kept = [str(Path(at, name).relative_to(root)) for name in folders]
        folders[:] = [name for name, path in zip(folders, kept) if path not in OF_DPKG]
        for path in (Path(at, name) for name in (*folders, *names)):
            part = str(path.relative_to(root))
            if part not in OF_DPKG:
                found[part] = told(path)
    return found


def inside(root: Path, words: list[Any], *how: str) -> subprocess.CompletedProcess[str]:
    """Runs a command in the root, which sees nothing else of this machine's files."""
    entered = ["unshare", "--mount", "--mount-proc", f"--root={root}", f"--wd=/{PLACE}", *how]
    environment = {"PATH": "/usr/sbin:/usr/bin:/sbin:/bin", "HOME": "/nonexistent", "DEBIAN_FRONTEND": "noninteractive"}
    return subprocess.run([*entered, *words], env=environment, capture_output=True, text=True, check=False)


def check_in_root(checks: Checks, deb: Path, root: Path) -> str:
    """Installs the package in the root, has all of it checked there, and purges it; the last line of the checks there."""
    before = contents(root)
    place = root / PLACE
    place.mkdir()
    shutil.copytree(TOOLS, place / "tools", ignore=shutil.ignore_patterns("__pycache__"))
    shutil.copy(deb, place)
    installed = inside(root, ["dpkg", "--install", deb.name])
    checks.tell(f"dpkg --install in {root}", installed.returncode == 0, installed.stdout + installed.stderr)
    ran = inside(root, ["python3", "-B", "tools/run-package", "--installed", "/usr"], *NOBODY)
    checks.tell(f"the checks in {root}", ran.returncode == 0, ran.stdout + ran.stderr)
    purged = inside(root, ["dpkg", "--purge", "celbpf"])
    shutil.rmtree(place)
    after = contents(root)
    changed = sorted(path for path in before.keys() | after.keys() if before.get(path) != after.get(path))
    checks.tell(f"dpkg --purge in {root}", purged.returncode == 0 and not changed, f"{purged.stderr} {changed}")
    return f"in {root.name}: {ran.stdout.strip().splitlines()[-1] if ran.stdout.strip() else 'nothing'}"
