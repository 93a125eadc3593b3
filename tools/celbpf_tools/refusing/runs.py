"""Runs of a program of which one allocation is refused, by a library that is loaded before those of the program."""

import os
import subprocess
from collections.abc import Sequence
from dataclasses import dataclass
from pathlib import Path

from ..entry import Stop
from ..home import DATA

SOURCE = DATA / "refused-allocations" / "refuse.c"


@dataclass(frozen=True)
class Ran:
    """How a run ended, and what it wrote on both outputs."""

    status: int
    out: bytes
    err: bytes


class Runs:
    """Runs programs, in a folder for files."""

    def __init__(self, folder: Path):
        self.folder = folder
        self.library = folder / "refuse.so"
        self.counted = folder / "counted"
        words = ["cc", "-O2", "-Wall", "-Werror", "-shared", "-fPIC", "-o", str(self.library), str(SOURCE)]
        try:
            subprocess.run(words, check=True)
        except (OSError, subprocess.CalledProcessError) as why:
            raise Stop(f"no library is made of {SOURCE}: {why}") from why

    def run(self, words: Sequence[str | Path], given: bytes = b"", refused: int = 0) -> Ran:
        """A run of which the allocation with this number is refused, counted from 1; none with 0."""
        more = {"LD_PRELOAD": str(self.library), "REFUSED": str(refused), "COUNTED": str(self.counted)}
        env = {**os.environ, **more}
        ran = subprocess.run([str(word) for word in words], input=given, capture_output=True, cwd=self.folder, env=env)
        return Ran(ran.returncode, ran.stdout, ran.stderr)

    def made(self) -> int:
        """How many allocations the last run made."""
        return int(self.counted.read_text())
