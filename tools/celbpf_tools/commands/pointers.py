"""Looks for the names of the pages in the files that they are said to be in, so that no page points at nothing.

usage: tools/pointers

It compares each name before a file in docs/CHANGING.md, docs/PROOFS.md, docs/READING.md and the tables of standards in
crates with the words of that file; the types of errors in docs/GLOSSARY.md, and the names in a crate's README, with the
words of the crate's sources; and each path in a page with the files that there are.
"""

import re
from pathlib import Path
from typing import Any, Iterator, Optional

from ..definitions import CRATES
from ..home import ROOT

SPAN = re.compile(r"`([^`]+)`")
WORD = re.compile(r"[A-Za-z_][\w']*")
PATH = re.compile(r"(\w+)/(specs|src|proofs|tests)/([\w/]*)(\.antt|\.rt)?")
TYPE = re.compile(r"`([a-z]\w*)::([A-Z]\w*)`")
# pages that name definitions before their file
NAMED_PAGES = ("CHANGING.md", "PROOFS.md", "READING.md", "RFC9669.md", "KUBERNETES.md")
NAMED = re.compile(r"((?:`\w+`(?:, | and )?)+) \(`([^`]+\.(?:antt|rt))`")
# names that a README gives to what the crate's own sources have; printed numbers, as K3, are none of them
NAME = re.compile(r"(?=\w*(?:[A-Z]|_))(?![A-Z]\d$)[A-Za-z_]\w*(?:::\w+)*")


def words_of(path: Path) -> set[Any]:
    return set(WORD.findall(path.read_text()))


def file_of(span: str, crates: Path) -> Optional[Path]:
    """The file or folder of a path, `None` if it is no path of a crate."""
    found = PATH.fullmatch(span)
    if not found or not (crates / found[1]).is_dir():
        return None
    path = crates / found[1] / found[2] / (found[3] + (found[4] or ""))
    return path if found[4] or path.is_dir() else path.with_suffix(".antt")


def of_names(lines: list[Any], crates: Path) -> Iterator[str]:
    """Names before a file, as `A`, `B` (`File.antt`): those that the file has not, which is of any crate."""
    for names, file in NAMED.findall(" ".join(line.strip() for line in lines)):
        paths = [crates / file] if "/" in file else list(crates.glob(f"*/specs/**/{file}"))
        found = set().union(*(words_of(path) for path in paths if path.exists()))
        yield from (f"{name} is not in {file}" for name in SPAN.findall(names) if name not in found)


def of_types(lines: list[Any], crates: Path) -> Iterator[str]:
    """Types, as `crate::Type`, that no source of the crate has."""
    for crate, name in (found for line in lines for found in TYPE.findall(line)):
        if not any(name in words_of(path) for path in (crates / crate / "src").rglob("*.rt")):
            yield f"{name} is not in {crate}"


def of_readme(lines: list[Any], crate: Path) -> Iterator[str]:
    """Names of a README that no source of its crate has."""
    files = [path for path in crate.rglob("*") if path.suffix in (".rt", ".antt")]
    found = set().union(*(set(WORD.findall(path.read_text())) | {path.stem} for path in files))
    found |= {path.name for path in crate.parent.iterdir()}
    for span in (span for line in lines for span in SPAN.findall(line) if NAME.fullmatch(span)):
        yield from (f"{word} is in no source" for word in span.split("::") if word not in found)


def of_paths(lines: list[Any], crates: Path) -> Iterator[str]:
    """Paths of a page at which there is nothing."""
    for span in (span for line in lines for span in SPAN.findall(line)):
        path = file_of(span, crates)
        if path and not path.exists() and not path.with_suffix(".rt").exists() and not path.with_suffix("").is_dir():
            yield f"there is no {span}"


def faults(root: Path, crates: Path) -> Iterator[str]:
    pages = [*sorted(root.glob("*.md")), *sorted((root / "docs").glob("*.md")), *sorted(crates.glob("*/*.md"))]
    for page in pages:
        lines = page.read_text().splitlines()
        checks = [of_paths(lines, crates)]
        if page.name == "GLOSSARY.md":
            checks.append(of_types(lines, crates))
        if page.name in NAMED_PAGES:
            checks.append(of_names(lines, crates))
        if page.name == "README.md" and page.parent.parent == crates:
            checks.append(of_readme(lines, page.parent))
        yield from (f"{page.relative_to(root)}: {fault}" for check in checks for fault in check)


def main() -> int:
    found = list(faults(ROOT, CRATES))
    if found:
        print(*found, sep="\n")
        print(f"{len(found)} names or files of pages are not there")
        return 1
    print("each name and file of the pages is there")
    return 0
