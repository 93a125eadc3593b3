"""Copies of the crates, on which scripts work, and drivers: programs of their own over some crates of a copy."""

import contextlib
import re
import shutil
import subprocess
import tempfile
from pathlib import Path
from typing import Any, Iterator

from ..home import DATA, ROOT

# for `tried`: compiled with checks alone, since the interpreter would take minutes
CHECKED = ["--steps", "1"]
MODULE = re.compile(r"^mod (.*);$", re.MULTILINE)


@contextlib.contextmanager
def copied(*left_out: Any) -> Iterator[Any]:
    """A folder with a copy of the crates, without what has one of these names; it is there as long as it is used."""
    with tempfile.TemporaryDirectory() as folder:
        shutil.copytree(ROOT / "crates", Path(folder, "crates"), ignore=shutil.ignore_patterns(*left_out))
        for file in ("crates.txt", "HANDLES"):
            shutil.copy(ROOT / file, folder)
        yield Path(folder)


def with_driver(copy: Any, script: Any, name: str, crates: Any) -> Any:
    """Puts the driver NAME.rt.txt of a script's data, with its modules, into a copy; its folder."""
    driver = copy / "crates" / f"driver_{name}"
    source = driver / "src"
    source.mkdir(parents=True)
    main = DATA / script / f"{name}.rt.txt"
    shutil.copy(main, source / "main.rt")
    for module in MODULE.findall(main.read_text()):
        shutil.copy(DATA / script / f"{module}.rt.txt", source / f"{module}.rt")
    with open(copy / "crates.txt", "a") as file:
        file.write(f"driver_{name}: {crates}\n")
    return driver


def tried(driver: Any, *words: Any) -> Any:
    """A run of a driver, built without proof."""
    return subprocess.run(["rt", "try", *words], cwd=driver, capture_output=True, text=True, stdin=subprocess.DEVNULL)
