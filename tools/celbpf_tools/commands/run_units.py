"""Runs the unit tests of the Python packages. They ask no program, so `--quick` changes nothing.

usage: tools/run-units [--quick] [-v]

mypy checks the types, and ruff the style, or else flake8 and isort, which Debian has; pyproject.toml says how. What is
not installed is left out, and a line says so.
"""

import os
import shutil
import subprocess
import sys
import unittest

from ..home import ROOT, TOOLS

# where packages are, each with its unit tests
PACKAGES = {TOOLS: "celbpf_tools", ROOT / "research": "celbpf_research"}
FOLDERS = [str(top / package) for top, package in PACKAGES.items()]
# flake8 does not read pyproject.toml; ruff has neither of E128, E203 and W503
FLAKE8 = ["--max-line-length=140", "--select=E,F,W", "--ignore=E741,E128,E203,W503", "--per-file-ignores=*/tests/*:E402,E501"]
# what is checked by which commands: those of the first group that is installed. None leaves anything in the folder
CHECKS = {
    "types": [[["mypy", "--config-file", "pyproject.toml", "--cache-dir", os.devnull]]],
    "style": [
        [["ruff", "check", "--no-cache", "--quiet", *FOLDERS]],
        [["flake8", *FLAKE8, *FOLDERS], ["isort", "--check-only", "--quiet", *FOLDERS]],
    ],
}


def passes(what: str) -> bool:
    """Whether a check finds nothing, or there are no commands for it."""
    for group in CHECKS[what]:
        if all(shutil.which(words[0]) for words in group):
            return not any([subprocess.run(words, cwd=ROOT, check=False).returncode for words in group])
    lacking = " and no ".join(" and ".join(words[0] for words in group) for group in CHECKS[what])
    print(f"{what}: left out, since there is no {lacking}")
    return True


def main() -> int:
    tests = unittest.TestSuite()
    for top, package in PACKAGES.items():
        # a loader keeps the first top that it is given
        tests.addTest(unittest.TestLoader().discover(str(top / package / "tests"), top_level_dir=str(top)))
    verbosity = 2 if "-v" in sys.argv[1:] else 1
    result = unittest.TextTestRunner(stream=sys.stdout, verbosity=verbosity).run(tests)
    sys.stdout.flush()
    # each check tells its own findings
    if not all([*map(passes, CHECKS), result.wasSuccessful()]):
        return 1
    print(f"all {result.testsRun} unit tests passed")
    return 0
