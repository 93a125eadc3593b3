"""The module of WebAssembly that the page holds."""

import os
from pathlib import Path
from typing import Optional

from ..entry import Stop
from ..home import ROOT, is_checkout

# names the module to use, where no word does
GIVEN = "CELBPF_MODULE"
# where `tools/wasm` puts the proved module, and the one without a proof
PROVED, QUICK = (ROOT / "crates" / "celbpf_page" / "out" / kind for kind in ("wasm", "quick"))
# the one for engines without memories of 64 bits, which all engines take, and the other
NAMES = ("celbpf32.wasm", "celbpf.wasm")
NO_MODULE = 10
NONE = "there is no module of WebAssembly: `tools/wasm` makes it, and `tools/wasm --quick` one without a proof, in some minutes"


def located(given: Optional[str] = None) -> Path:
    """The module that is given, or the one that was made here, if it can be the proved one."""
    given = given or os.environ.get(GIVEN)
    if given:
        return Path(given)
    found = made(PROVED) or made(QUICK) if is_checkout() else None
    if not found:
        raise Stop(NONE, NO_MODULE)
    return found


def made(folder: Path) -> Optional[Path]:
    """The module of a folder, if one is there."""
    return next((folder / name for name in NAMES if (folder / name).exists()), None)


def packed() -> Optional[Path]:
    """The module for a package: one that is named, or the proved one; `None` if there is neither."""
    given = os.environ.get(GIVEN)
    return Path(given) if given else made(PROVED)


def told(given: Optional[str] = None) -> str:
    """What is said of the module."""
    path = located(given)
    if path.parent == QUICK:
        return "a module that is not proved"
    return "the proved module" if path.parent == PROVED else f"the module {path}"
