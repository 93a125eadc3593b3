"""Builds the library for C, Go, Python and Rust, tests it from each, and installs it.

usage: tools/embed [--library FILE] [--to FOLDER] [--program PROGRAM] [--no-tests] [--measure]
                   [--install PREFIX]

It proves and builds the crate celbpf_c first if it is not up to date; FILE is an archive of it that is built already. In
FOLDER (dist) it makes lib/libcelbpf.a, lib/libcelbpf.so, include/celbpf.h and lib/pkgconfig/celbpf.pc. Then it runs the
tests of each language whose compiler is here on all examples, and says which it left out. PROGRAM is a celbpf whose
images and refusals are compared too. `--measure` prints how fast each language decides. `--install` copies what was made,
and the sources of the packages, below PREFIX. It needs a C compiler (`CC`, or cc), ld, objcopy and nm. Status 0 says that
all tests passed, 1 that one failed, 10 that there is no compiler or no rt, 13 that the crate is not proved or that the
library cannot be built.
"""

import argparse
import tempfile
from pathlib import Path

from ..embedding.building import built_library, installed, made
from ..embedding.callers import LANGUAGES
from ..embedding.measuring import measured
from ..entry import parser_of
from ..home import ROOT


def words() -> argparse.Namespace:
    parser = parser_of(__doc__)
    parser.add_argument("--library", metavar="FILE", type=Path, help="take this libcelbpf_c.a, and prove and build none")
    parser.add_argument("--to", metavar="FOLDER", type=Path, default=ROOT / "dist", help="write there (dist)")
    parser.add_argument("--program", metavar="PROGRAM", type=Path, help="compare images and refusals with this celbpf")
    parser.add_argument("--no-tests", action="store_true", help="test nothing")
    parser.add_argument("--measure", action="store_true", help="print how fast each language decides")
    parser.add_argument("--install", type=Path, metavar="PREFIX", help="copy all below this folder")
    return parser.parse_args()


def tested(dist: Path, program: Path) -> int:
    """Runs each language's tests; how many failed."""
    failed = 0
    with tempfile.TemporaryDirectory() as folder:
        for name, language in LANGUAGES.items():
            work = Path(folder, name)
            work.mkdir()
            for passed, line in language(dist, work, program):
                print(f"{name}: {line}", flush=True)
                failed += not passed
    return failed


def main() -> int:
    given = words()
    dist = given.to.resolve()
    made(given.library or built_library(), dist)
    print(f"made {dist / 'lib' / 'libcelbpf.a'}, libcelbpf.so, celbpf.h and celbpf.pc")
    failed = 0 if given.no_tests else tested(dist, given.program and given.program.resolve())
    if failed:
        print(f"{failed} of the tests failed")
        return 1
    if given.measure:
        with tempfile.TemporaryDirectory() as folder:
            for line in measured(dist, Path(folder)):
                print(line, flush=True)
    if given.install:
        installed(dist, given.install)
        print(f"installed below {given.install}")
    return 0
