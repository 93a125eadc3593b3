"""The whole page: one HTML file that loads nothing, also with a case in it."""

import base64
import gzip
import hashlib
import html
import json
from pathlib import Path
from typing import Any, Optional

from ..entry import Stop
from ..home import PACKAGE, is_checkout
from ..vapctl.version import version
from . import module
from .bundling import bundled
from .examples import examples, first
from .sources import FOLDER
from .tables import tables

# where a package has the page, below its prefix
PLACE = Path("share", "doc", "celbpf", "playground.html")
CASE = '<script type="application/json" id="case">null</script>'


def embedded(given: Any) -> str:
    """JSON for an element `script`: ASCII alone, and nothing in it ends the element or begins a comment."""
    text = json.dumps(given, ensure_ascii=True, separators=(",", ":"))
    return text.replace("<", "\\u003c").replace(">", "\\u003e").replace("&", "\\u0026")


def zipped(content: bytes) -> str:
    """Bytes, compressed, as ASCII; the same for the same bytes."""
    return base64.b64encode(gzip.compress(content, 9, mtime=0)).decode()


def hashed(text: str) -> str:
    """The source of a policy of content security that lets this text run alone."""
    return f"'sha256-{base64.b64encode(hashlib.sha256(text.encode()).digest()).decode()}'"


def rule(style: str, script: str) -> str:
    """The policy of content security: nothing is loaded, and only this style, this script and workers of its own are used."""
    used = f"style-src {hashed(style)}; script-src {hashed(script)} 'wasm-unsafe-eval'; worker-src blob:; img-src data:"
    return html.escape(f"default-src 'none'; {used}; base-uri 'none'; form-action 'none'", quote=True)


def about(given: Optional[str]) -> str:
    """What the page says of its module."""
    unproved = ", not proved" if module.located(given).parent == module.QUICK else ""
    return html.escape(f"celbpf {version()}{unproved}")


def page(given: Optional[str] = None) -> str:
    """The text of the page, with the module of this file."""
    style, script = (FOLDER / "style.css").read_text(encoding="utf-8"), bundled(FOLDER / "main.js")
    parts = {
        "/*RULE*/": rule(style, script), "/*STYLE*/": style, "/*SCRIPT*/": script, "/*TABLES*/": embedded(tables()),
        "/*FIRST*/": embedded(first()),
        "/*EXAMPLES*/": zipped(json.dumps(examples()).encode()), "/*WORKER*/": bundled(FOLDER / "worker.js"),
        "/*MODULE*/": zipped(module.located(given).read_bytes()), "<!--VERSION-->": about(given),
    }
    text = (FOLDER / "page.html").read_text(encoding="utf-8")
    for mark, part in parts.items():
        text = text.replace(mark, part, 1)
    return text


def written_page() -> str:
    """The page of the package, or the one of the sources."""
    if is_checkout():
        return page()
    file = PACKAGE.parents[2] / PLACE
    if not file.exists():
        raise Stop(f"this package has no page: {file} is missing", module.NO_MODULE)
    return file.read_text(encoding="utf-8")


def with_case(text: str, case: dict[str, Any]) -> str:
    """The page with a case in it, which it shows when it is opened."""
    assert CASE in text
    return text.replace(CASE, CASE.replace("null", embedded(case)), 1)
