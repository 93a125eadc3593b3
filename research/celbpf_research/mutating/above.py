"""The words of a check of a crate that takes those below it as sources, so that none of their code has to be proved."""

import functools
import subprocess
from pathlib import Path


@functools.cache
def kit() -> Path:
    """The folder of the toolchain, which `rt` names by the page to read first."""
    page = subprocess.run(["rt", "doc"], capture_output=True, text=True, check=True).stdout.strip()
    return Path(page).parent


def dependencies(root: Path) -> dict[str, list[str]]:
    """The crates of a repository, each with what it depends on, of the repository and of the kit."""
    found = {}
    for line in (root / "crates.txt").read_text(encoding="utf-8").splitlines():
        name, colon, rest = line.split("#")[0].partition(":")
        if colon:
            found[name.split()[0]] = rest.split()
    return found


def below(of: dict[str, list[str]], crate: str) -> list[str]:
    """The crates of the repository that one stands on, the lowest first."""
    found: list[str] = []
    for name in of[crate]:
        if name in of:
            found += [it for it in [*below(of, name), name] if it not in found]
    return found


def flags(of: dict[str, list[str]], crate: str, crates: Path) -> list[str]:
    """The libraries of a check of this crate: those of the kit as they are built, and the crates below as sources."""
    names = below(of, crate)
    used = ["core", "std", *(it for name in [*names, crate] for it in of[name] if it not in of)]
    words = [word for it in dict.fromkeys(used) for word in ("--extern", f"{it}={kit()}/rlibs/{it}.rlib")]
    words += ["-L", f"dependency={kit()}/rlibs"]
    for name in names:
        uses = ",".join(dict.fromkeys(["core", "std", *of[name]]))
        words += ["--lib", f"{name}:{uses}={crates}/{name}/src/lib.rt"]
    return words


def check(of: dict[str, list[str]], crate: str, crates: Path, kept: Path, paths: list[str]) -> list[str]:
    """The command that proves these functions of the crate, over what is kept."""
    only = [word for path in paths for word in ("--only", path)]
    return [
        str(kit() / "bin" / "rattle"), "check", "--crate-name", crate, "src/lib.rt", *flags(of, crate, crates),
        "--antt-project", str(kit() / "rattle" / "logic" / "antt-project.json"), "--logic-built", str(kit() / "logic_built"),
        "--jobs", "1", "--incremental", str(kept), *only,
    ]  # fmt: skip
