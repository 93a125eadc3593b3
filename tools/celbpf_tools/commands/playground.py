"""Writes the page in which policies are decided, explained and debugged: one HTML file that loads nothing.

usage: tools/playground [--module FILE] [PAGE]

PAGE is playground.html by default. FILE is the module of WebAssembly, by default the newest of those that `tools/wasm` and
`tools/wasm --quick` made.
"""

from pathlib import Path

from ..entry import parser_of
from ..playground import module
from ..playground.building import page


def main() -> int:
    parser = parser_of(__doc__)
    parser.add_argument("--module", metavar="FILE")
    parser.add_argument("page", metavar="PAGE", nargs="?", default="playground.html")
    given = parser.parse_args()
    text = page(given.module)
    Path(given.page).write_text(text, encoding="utf-8")
    print(f"{given.page}: {len(text):,} bytes, with {module.told(given.module)}")
    return 0
