"""Where the repository is, or what is installed of it."""

import os
import shutil
from pathlib import Path
from typing import Optional

PACKAGE = Path(__file__).resolve().parent
# the top of the repository; of an installed package the folder that its data are in
ROOT = PACKAGE.parent.parent
TOOLS = ROOT / "tools"
DATA = TOOLS / "data"
EXAMPLES = ROOT / "examples" / "policies"


def is_checkout() -> bool:
    """Whether this is a repository, with crates to build, and not an installed package."""
    return (ROOT / "crates.txt").exists()


def built(name: str) -> Path:
    """Where a program of the repository is once it is built."""
    return ROOT / "crates" / name / "out" / name


def unproved(name: str) -> Path:
    """Where the program is that tools/quick compiles from the sources without a proof."""
    return ROOT / "crates" / name / "out" / "quick" / name


def installed(name: str) -> Optional[str]:
    """The program that is installed beside the package, or else in the path; `None` if there is none."""
    beside = PACKAGE.parents[2] / "bin" / name
    return str(beside) if os.access(beside, os.X_OK) else shutil.which(name)
