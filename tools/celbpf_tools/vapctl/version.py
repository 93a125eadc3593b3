"""The version of the package."""

import re

from ..home import PACKAGE, ROOT, is_checkout

# written where the package is made
FILE = PACKAGE / "version"
ABOUT = ROOT / "crates" / "gatekeeper_runner" / "src" / "about.rt"
VERSION = re.compile(r'"gatekeeper ([0-9.]+)\\n"')


def version() -> str:
    """The version that `gatekeeper --version` prints."""
    try:
        if not is_checkout():
            return FILE.read_text(encoding="utf-8").strip()
        found = VERSION.search(ABOUT.read_text(encoding="utf-8"))
        return found[1] if found else "unknown"
    except OSError:
        return "unknown"
