"""The pages of the repository as they are installed: for users, with the installed names, and links to what is there."""

import os
import re
from typing import Any, Iterator

from ..home import ROOT

PAGES = (
    "ASSEMBLER", "CEL", "CLUSTER", "CLUSTERS", "CODE", "COMMANDS", "DEBUGGER", "EMBEDDING", "GATEKEEPER", "GLOSSARY", "HELPERS",
    "INSTALL", "LANGUAGE", "MACHINE", "PERFORMANCE", "PIPELINES", "PLAYGROUND", "POLICIES", "TUTORIAL", "VALUES", "VAPCTL", "WHY",
)
EXAMPLES = sorted(str(path.relative_to(ROOT)) for path in ROOT.glob("examples/**/README.md"))
INSTALLED = ("README.md", "CHANGELOG.md", *(f"docs/{page}.md" for page in PAGES), *EXAMPLES)
HOME = "/usr/share/doc/celbpf"
# sections of pages that are for those who have the repository
LEFT_OUT = {
    "docs/EMBEDDING.md": ("Install",),
    "docs/INSTALL.md": ("Make the package",),
    "docs/PLAYGROUND.md": ("Make the page",),
}
# what a paragraph has that says how the programs or the package are made
BUILDING = re.compile(r"`rt\b|^    rt\b|^passes all proofs\b|\btools/(?:quick|build|wasm)\b|\bcrates/\w+/out\b|`crates\.txt`")
LINK = re.compile(r"\[([^\]]*)\]\(([^)#\s]+)(#[^)\s]*)?\)")
NAMES = [
    (re.compile(r"`(?:tools|research)/([^`]+)`"), r"`\1` of the repository"),
    (re.compile(r"(?<![\w/.])tools/(\w)"), r"\1"),
    (re.compile(r"(?<![\w/.])\./(celbpf|gatekeeper|vapctl)\b"), r"\1"),
    (re.compile(r"(?<![\w/.])embed/c/example\.c"), f"{HOME}/examples/c/example.c"),
    (re.compile(r"(?<![\w/.(])examples/"), f"{HOME}/examples/"),
    (re.compile(r"\bPREFIX/"), "/usr/"),
]
# files that have other places once they are installed
PLACES = {"embed/c/celbpf.h": "`/usr/include/celbpf.h`"}


def pictures() -> list[Any]:
    """The pictures of the pages."""
    return sorted(str(path.relative_to(ROOT)) for path in ROOT.glob("docs/*.png"))


def renamed(text: str) -> str:
    """A text with the installed names of programs and examples."""
    for pattern, by in NAMES:
        text = pattern.sub(by, text)
    return text


def without_sections(text: str, titles: tuple[Any, ...]) -> str:
    """A page without the sections of these titles."""
    for title in titles:
        text = re.sub(rf"^## {re.escape(title)}\n.*?(?=^## |\Z)", "", text, flags=re.MULTILINE | re.DOTALL)
    return text.rstrip("\n") + "\n"


def path_of(page: str, target: str) -> str:
    """The path in the repository that a link of a page leads to."""
    return os.path.normpath(os.path.join(os.path.dirname(page), target))


def is_installed(page: str, target: str) -> bool:
    """Whether what a link of a page leads to is installed."""
    if "://" in target:
        return True
    path = path_of(page, target)
    return path in INSTALLED or path in pictures() or (path.startswith("examples") and (ROOT / path).exists())


def linked(page: str, text: str) -> Iterator[str]:
    """The lines of a page, with links to what is installed alone; rows of tables that link to nothing else are left out."""

    def link(found: re.Match[str]) -> str:
        if is_installed(page, found[2]):
            return found[0]
        return PLACES.get(path_of(page, found[2]), f"{found[1]} (in the repository)")

    for line in text.split("\n"):
        links = LINK.findall(line)
        if links and line.startswith("|") and not any(is_installed(page, target) for _, target, _ in links):
            continue
        yield LINK.sub(link, line)


def installed(page: str) -> str:
    """A page as it is installed."""
    text = without_sections((ROOT / page).read_text(encoding="utf-8"), LEFT_OUT.get(page, ()))
    blocks = text.split("\n\n")
    if page != "CHANGELOG.md":
        blocks = [block for block in blocks if not BUILDING.search(block)]
    return renamed("\n".join(linked(page, "\n\n".join(blocks))))
