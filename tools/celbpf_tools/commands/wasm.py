"""Makes the WebAssembly module of the proved calls, and compares its answers with the programs'.

usage: tools/wasm [--quick] [--check [--seed N] [--count N]] [--module FILE] [--programs FOLDER] [--to FOLDER]
       tools/wasm --engines

The module is `celbpf.wasm`, for engines with memories of 64 bits, and beside it `celbpf32.wasm` for the others, which
`wasm-opt` makes if it is there and recent enough. It proves and builds the crate celbpf_page first, if it is not up to
date. With `--quick` the module is compiled from the sources without checking their proofs. It prints where the module
is, or copies it with its wrapper to FOLDER. `--check` compares responses, images, listings, sessions, translations and
refusals with those of the programs, over the examples and N policies from a seed (100), and tries hostile documents, in
Node and in Chromium, if they are here; FOLDER has the programs celbpf and gatekeeper, or else they are those that
`./celbpf` and `./gatekeeper` run. `--module` takes a module that is made already. `--engines` prints which engines are
here that take it. Status 0 says that all was the same, 1 that something was not, 10 that there is no rt, or no engine, 13
that the crate is not proved or that the module cannot be made.
"""

import argparse
import json
import shutil
import tempfile
from pathlib import Path
from typing import Any, Iterator

from ..asking.program import current, usable
from ..entry import Stop, parser_of
from ..quick.halves import Differs
from ..wasm.cases import Programs, cases
from ..wasm.engines import LEFT_OUT, Told, here, in_browser, in_node
from ..wasm.linking import EMBED, lowering
from ..wasm.making import NAMES, NOT_BUILT, make

NO_ENGINE = 10
SEED = 31


def words() -> argparse.Namespace:
    parser = parser_of(__doc__)
    parser.add_argument("--quick", action="store_true", help="compile the sources without checking their proofs")
    parser.add_argument("--check", action="store_true", help="compare the answers with those of the programs")
    parser.add_argument("--seed", type=int, default=SEED, help=f"compare policies from this seed too ({SEED})")
    parser.add_argument("--count", type=int, default=100, help="compare so many of them (100)")
    parser.add_argument("--module", metavar="FILE", type=Path, help="take this module, and make none")
    parser.add_argument("--programs", metavar="FOLDER", type=Path, help="compare with the programs in this folder")
    parser.add_argument("--engines", action="store_true", help="print which engines are here, and make nothing")
    parser.add_argument("--to", metavar="FOLDER", type=Path, help="copy the module and its wrapper there")
    return parser.parse_args()


def module_of(given: argparse.Namespace) -> Path:
    """The module that is given, or made."""
    if given.module:
        return given.module.resolve(strict=True)
    try:
        return make(given.quick)
    except Differs as why:
        raise Stop(f"the module is not made: {why}", NOT_BUILT) from why


def forms_of(module: Path) -> list[Any]:
    """The module, and the one for 32-bit memories if it is beside it."""
    return [file for file in dict.fromkeys((module, module.with_name(NAMES[1]))) if file.is_file()]


def copied(modules: list[Any], to: Path) -> None:
    to.mkdir(parents=True, exist_ok=True)
    for file in [*modules, EMBED / "celbpf.mjs"]:
        shutil.copy(file, to)


def program_in(folder: Any, name: str) -> Path:
    return usable(str(folder / name)) if folder else current(name)


def compared(modules: list[Any], given: argparse.Namespace) -> int:
    """Compares the answers of each engine, and says how many were compared; how many engines did not pass."""
    celbpf, gatekeeper = (program_in(given.programs, name) for name in ("celbpf", "gatekeeper"))
    with tempfile.TemporaryDirectory() as folder:
        asked, file = Path(folder, "asked"), Path(folder, "cases.json")
        asked.mkdir()
        made = cases(Programs(celbpf, gatekeeper, asked), given.seed, given.count)
        file.write_text(json.dumps(made))
        told = [*tell(in_node(modules, file)), *tell(in_browser(modules, file))]
    ran = [passed for passed, line in told if LEFT_OUT not in line]
    if not ran:
        raise Stop("no engine was here that takes the module", NO_ENGINE)
    if all(ran):
        print(f"all {len(made)} answers are those of the programs, or fail as they may, in {len(ran)} runs of engines")
    return ran.count(False)


def tell(found: Told) -> Iterator[tuple[bool, str]]:
    """Prints what an engine says as it comes, and passes it on."""
    for passed, line in found:
        print(line, flush=True)
        yield passed, line


def engines() -> int:
    found = here(lowering() is not None)
    if not found:
        raise Stop("there is no Chromium, and no Node with wide memories or with a wasm-opt that is recent enough", NO_ENGINE)
    print(*found, sep=", ")
    return 0


def main() -> int:
    given = words()
    if given.engines:
        return engines()
    modules = forms_of(module_of(given))
    if given.to:
        copied(modules, given.to)
    print(*(given.to / file.name if given.to else file for file in modules), sep=", ", flush=True)
    return 1 if given.check and compared(modules, given) else 0
