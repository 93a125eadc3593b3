"""Runs of the checks in `embed/wasm/tests` by Node and by Chromium."""

import functools
import http.server
import json
import shutil
import subprocess
import threading
from pathlib import Path
from typing import Any, Iterator, Tuple

from ..browsing.browser import NAMES as BROWSERS
from ..browsing.browser import Browser, Page
from .linking import EMBED

TESTS = EMBED / "tests"
IN_PAGE = """(async () => {
    const { hasWideMemory } = await import('/celbpf.mjs');
    if (%(wide)s && !hasWideMemory()) return { told: 'left out, since this engine has no wide memory', faults: [] };
    const { checked } = await import('/tests/checks.mjs');
    return checked(await fetch('/module.wasm'), await (await fetch('/cases.json')).json());
})()"""
LEFT_OUT = "left out, since"
Told = Iterator[Tuple[bool, str]]


def told_by(*words: Any) -> str:
    """What a command writes, also of one that fails."""
    return subprocess.run(words, capture_output=True, text=True, check=False).stdout.strip()


def is_wide(node: str) -> bool:
    """Whether this Node takes a module with a memory of 64 bits."""
    return told_by(node, TESTS / "run.mjs", "--wide") == "true"


def here(lowers: bool) -> list[str]:
    """The engines that are here and take the module, or the lowered one if there is one."""
    node, found = shutil.which("node"), []
    if node and (lowers or is_wide(node)):
        found.append("Node")
    if any(map(shutil.which, BROWSERS)):
        found.append("Chromium")
    return found


def in_node(modules: list[Path], cases: Path) -> Told:
    """What Node says of each module, and whether it passed."""
    node = shutil.which("node")
    if not node:
        yield True, "Node: left out, since there is no command node"
        return
    version, wide = told_by(node, "--version"), is_wide(node)
    for module in modules:
        begin = f"Node {version}, {module.name}:"
        if "32" not in module.name and not wide:
            yield True, f"{begin} left out, since it has no wide memory"
            continue
        done = subprocess.run([node, TESTS / "run.mjs", module, cases], capture_output=True, text=True, check=False)
        yield done.returncode == 0, f"{begin} {(done.stderr + done.stdout).strip()}"


class Files(http.server.SimpleHTTPRequestHandler):
    """Hands out the wrapper and its tests, a module and the cases."""

    extensions_map = {".mjs": "text/javascript", ".wasm": "application/wasm", ".json": "application/json", "": "text/html"}

    def __init__(self, others: dict[str, Path], *given: Any):
        self.others = others
        super().__init__(*given, directory=str(EMBED))

    def translate_path(self, path: str) -> str:
        return str(self.others.get(path) or super().translate_path(path))

    def log_message(self, *_: Any) -> None:
        pass


def in_browser(modules: list[Path], cases: Path) -> Told:
    """What Chromium says of each module, and whether it passed."""
    if not any(map(shutil.which, BROWSERS)):
        yield True, "Chromium: left out, since there is no command chromium"
        return
    with Browser() as browser:
        for module in modules:
            passed, told = in_page(browser.page(), module, cases)
            yield passed, f"Chromium, {module.name}: {told}"


def in_page(page: Page, module: Path, cases: Path) -> tuple[bool, str]:
    """What a page says of a module."""
    given = {"/module.wasm": module, "/cases.json": cases, "/": EMBED / "README.md", "/favicon.ico": EMBED / "README.md"}
    with http.server.ThreadingHTTPServer(("127.0.0.1", 0), functools.partial(Files, given)) as server:
        threading.Thread(target=server.serve_forever, daemon=True).start()
        page.go(f"http://127.0.0.1:{server.server_port}/")
        found = page.value(IN_PAGE % {"wide": json.dumps("32" not in module.name)})
        server.shutdown()
    return not (found["faults"] or page.errors), "\n".join([*found["faults"], *page.errors, found["told"]])
