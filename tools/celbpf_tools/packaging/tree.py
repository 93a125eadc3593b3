"""The files of a package, in a folder that becomes the root or a prefix."""

import gzip
import shutil
import sys
import tempfile
from pathlib import Path
from typing import Any, Optional

from ..embedding.building import EMBED, installed, made
from ..home import PACKAGE, ROOT
from ..playground import module
from ..playground.building import PLACE, page
from ..vapctl.main import DESCRIPTION
from ..vapctl.main import NAMES as VAPCTL
from ..vapctl.main import parser
from . import manual, pages
from .commands_manual import of_parser
from .completion import NAMES, bash, zsh

# the files and the packages of Python that `vapctl` needs, which need nothing of the repository
FILES = ("__init__.py", "aliases.py", "documents.py", "entry.py", "home.py", "yaml_loader.py", "yaml_words.py")
MODULES = ("asking", "assembling", "testing", "evaluator", "manifests", "playground", "slots", "dap", "vapctl")
ENTRY = '''#!/usr/bin/env python3
"""{what}"""

import sys
from pathlib import Path

sys.dont_write_bytecode = True
sys.path.insert(0, str(Path(__file__).resolve().parent.parent / "lib" / "celbpf"))

from celbpf_tools.entry import run
from celbpf_tools.vapctl.main import main

run("{name}", main)
'''

PROGRAMS = {
    "celbpf": ("compiles, reviews and debugs policies", "COMMANDS.md"),
    "gatekeeper": ("answers reviews, a line each, under policies that are compiled once", "GATEKEEPER.md"),
}


def written(path: Path, text: str, mode: int = 0o644) -> None:
    path.parent.mkdir(parents=True, exist_ok=True)
    path.write_text(text, encoding="utf-8")
    path.chmod(mode)


def copied(source: Path, target: Path) -> None:
    """A file or a folder, without what Python and rt leave."""
    target.parent.mkdir(parents=True, exist_ok=True)
    if source.is_dir():
        shutil.copytree(source, target, ignore=shutil.ignore_patterns("__pycache__", "out"))
    else:
        shutil.copy(source, target)


def put_programs(prefix: Path, programs: dict[str, Any]) -> None:
    for name, path in programs.items():
        copied(path, prefix / "bin" / name)
        (prefix / "bin" / name).chmod(0o755)


def put_modules(prefix: Path) -> None:
    """The modules of Python that `vapctl` needs."""
    package = prefix / "lib" / "celbpf" / "celbpf_tools"
    for name in MODULES:
        copied(PACKAGE / name, package / name)
    for file in FILES:
        copied(PACKAGE / file, package / file)


def put_vapctl(prefix: Path, version: str) -> None:
    """The command `vapctl`, also as a plugin of `kubectl`, and the version that it prints."""
    for name in VAPCTL:
        written(prefix / "bin" / name, ENTRY.format(name=name, what=DESCRIPTION), 0o755)
    written(prefix / "lib" / "celbpf" / "celbpf_tools" / "version", f"{version}\n")


def put_library(prefix: Path, library: Path) -> None:
    """The library made of the proved one, with its header, the packages as sources, and an example in C."""
    with tempfile.TemporaryDirectory() as folder:
        made(library, Path(folder))
        installed(Path(folder), prefix)
    copied(EMBED / "c" / "example.c", prefix / "share" / "doc" / "celbpf" / "examples" / "c" / "example.c")


def put_pages(prefix: Path, version: str) -> None:
    """Man pages, compressed as Debian has them."""
    found = {name: manual.of_page(name, what, pages.installed(f"docs/{page}"), version)
             for name, (what, page) in PROGRAMS.items()}
    tests = manual.section(pages.installed("docs/VAPCTL.md"), "Tests of policies")
    found.update({name: of_parser(name, parser(name), version, tests) for name in VAPCTL})
    folder = prefix / "share" / "man" / "man1"
    folder.mkdir(parents=True)
    for name, text in found.items():
        (folder / f"{name}.1.gz").write_bytes(gzip.compress(text.encode(), mtime=0))
        (folder / f"{name}.1.gz").chmod(0o644)


def put_documents(prefix: Path) -> None:
    doc = prefix / "share" / "doc" / "celbpf"
    copied(ROOT / "examples", doc / "examples")
    for name in pages.INSTALLED:
        written(doc / name, pages.installed(name))
    for path in pages.pictures():
        copied(ROOT / path, doc / path)
    copied(ROOT / "LICENSE", doc / "copyright")


def put_playground(prefix: Path) -> None:
    """The page in which policies are decided, with the proved module; if there is none, the page is left out."""
    file = module.packed()
    if file:
        written(prefix / PLACE, page(str(file)))
    else:
        print(f"the page is left out: {module.NONE}", file=sys.stderr)


def put_completion(prefix: Path) -> None:
    folder = prefix / "share" / "bash-completion" / "completions"
    written(folder / "celbpf", bash())
    for name in NAMES[1:]:
        (folder / name).symlink_to("celbpf")
    written(prefix / "share" / "zsh" / "vendor-completions" / "_celbpf", zsh())


def plant(prefix: Path, programs: dict[str, Any], library: Optional[Path], version: str) -> None:
    """Puts all files of the package below a prefix, such as /usr; without a library that is left out."""
    put_programs(prefix, programs)
    put_modules(prefix)
    put_vapctl(prefix, version)
    put_pages(prefix, version)
    put_documents(prefix)
    put_playground(prefix)
    put_completion(prefix)
    if library:
        put_library(prefix, library)
    prefix.chmod(0o755)
    for path in sorted(prefix.rglob("*")):
        if not path.is_symlink():
            path.chmod(0o755 if path.is_dir() or path.parent == prefix / "bin" else 0o644)
