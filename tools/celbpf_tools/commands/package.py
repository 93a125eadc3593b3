"""Makes a Debian package and a tar archive of the built programs, `vapctl` and their pages.

usage: tools/package [--programs FOLDER] [--library FILE] [--no-library] [--to FOLDER] [--tar]

They are `celbpf_VERSION_ARCH.deb` and `.tar.xz` in the folder `dist`. Installed are celbpf, gatekeeper, vapctl, also as
kubectl-vap, a man page of each, completion for bash and zsh, the library for C, Go, Python and Rust, the pages for users,
the page in which policies are decided, if `tools/wasm` has made its module, the examples and the licence.
FOLDER of `--programs` has the programs to pack, and `libcelbpf_c.a`; they are packed as they are. Without it `tools/build`
proves and builds those of the repository first if they are not up to date, with the library. FILE is another library to
pack; `--no-library` leaves it out. `--tar` makes the tar archive alone.

The version is what `gatekeeper --version` prints. One commit, with the same programs and library, gives the same bytes;
the files have its time, or that of SOURCE_DATE_EPOCH. Status 0 says that both are made, 3 that a file cannot be read or
written or that the programs are of another version, 10 that there is no dpkg-deb or no rt, 13 that there is no library or
that a crate is not proved.
"""

import argparse
import tempfile
from pathlib import Path
from typing import Any

from ..asking.program import told_by, usable
from ..embedding.building import NOT_BUILT
from ..entry import Stop, parser_of
from ..home import ROOT, TOOLS, built
from ..packaging.archives import arch_of, checked_version, deb, epoch_of, tar
from ..packaging.tree import plant

NAMES = ("celbpf", "gatekeeper")
LIBRARY = "libcelbpf_c.a"


def words() -> argparse.Namespace:
    parser = parser_of(__doc__)
    parser.add_argument("--programs", metavar="FOLDER", type=Path, help="pack the programs, and the library, of this folder")
    parser.add_argument("--library", metavar="FILE", type=Path, help=f"pack this {LIBRARY}")
    parser.add_argument("--no-library", action="store_true", help="leave the library out")
    parser.add_argument("--to", metavar="FOLDER", type=Path, default=ROOT / "dist", help="write there (dist)")
    parser.add_argument("--tar", action="store_true", help="make the tar archive alone")
    return parser.parse_args()


def packed(given: argparse.Namespace) -> tuple[Any, ...]:
    """The programs to pack, and the library, or `None` if it is to be left out. The repository's are proved and built."""
    is_built = not (given.no_library or given.library)
    if given.programs:
        programs = {name: usable(str(given.programs / name)) for name in NAMES}
        library = given.library or given.programs / LIBRARY
    else:
        told_by([TOOLS / "build", *(["--library"] if is_built else [])])
        programs = {name: built(name) for name in NAMES}
        library = given.library or ROOT / "crates" / "celbpf_c" / "out" / LIBRARY
    if given.no_library:
        return programs, None
    if not library.is_file():
        raise Stop(f"there is no library {library}: --library FILE takes another, --no-library leaves it out", NOT_BUILT)
    return programs, library


def main() -> int:
    given = words()
    programs, library = packed(given)
    version, epoch = checked_version(programs["gatekeeper"]), epoch_of()
    given.to.mkdir(parents=True, exist_ok=True)
    name = f"celbpf_{version}_{arch_of()}"
    with tempfile.TemporaryDirectory() as folder:
        root = Path(folder, "root")
        plant(root / "usr", programs, library, version)
        made = [given.to / f"{name}.tar.xz"]
        tar(root / "usr", f"celbpf-{version}", epoch, made[0])
        if not given.tar:
            made.append(given.to / f"{name}.deb")
            deb(root, version, epoch, made[1])
    for path in made:
        print(f"{path}: {path.stat().st_size:,} bytes")
    return 0
