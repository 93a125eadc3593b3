"""The tests of each language. Each yields whether a test passed and a line, or a line that it was left out."""

import os
import re
import resource
import shutil
import subprocess
import sys
from pathlib import Path
from typing import Any, Callable, Iterator, Optional, Tuple

from ..home import EXAMPLES
from .building import EMBED, FLAGS

Told = Iterator[Tuple[bool, str]]


def missing(*commands: str) -> Optional[str]:
    """Why a test is left out: the first of these commands that is not here."""
    lacking = next((command for command in commands if not shutil.which(command)), None)
    return f"left out, since there is no command {lacking}" if lacking else None


def unlimited() -> None:
    """Without a limit of the stack, the C library gives threads 2 MB."""
    resource.setrlimit(resource.RLIMIT_STACK, (resource.RLIM_INFINITY, resource.RLIM_INFINITY))


def can_be_unlimited() -> bool:
    return resource.getrlimit(resource.RLIMIT_STACK)[1] == resource.RLIM_INFINITY


def run(what: str, words: list[Any], folder: Path, before: Optional[Callable[[], None]] = None, **names: str) -> Tuple[bool, str]:
    """Runs a command: whether it passed, and its last line, or all that it said."""
    done = subprocess.run(
        [str(word) for word in words], cwd=folder, env={**os.environ, **names}, stdout=subprocess.PIPE, stderr=subprocess.STDOUT,
        text=True, preexec_fn=before, check=False,
    )
    if done.returncode:
        return False, f"{what} failed with status {done.returncode}:\n{done.stdout}"
    # the counts of unittest and of cargo, or else the last line
    lines = done.stdout.strip().splitlines()
    counts = [line for line in lines if re.match(r"Ran \d+ tests|test result: ok\. [1-9]", line)] or lines[-1:]
    return True, f"{what} passed" + (f": {counts[0]}" if counts else "")


def flags_of(dist: Path) -> list[Any]:
    return ["-I", dist / "include", dist / "lib" / "libcelbpf.a", "-pthread"]


def in_c(dist: Path, work: Path, _: Optional[Path]) -> Told:
    tests, example, cc = work / "tests", EMBED / "c" / "example.c", os.environ.get("CC", "cc")
    built, line = run("building the tests", [cc, *FLAGS, "-o", tests, EMBED / "c" / "tests" / "tests.c", *flags_of(dist)], work)
    if not built:
        yield False, line
        return
    yield run("the tests", [tests, EXAMPLES], work)
    valgrind = ["valgrind", "-q", "--error-exitcode=9", "--leak-check=full", tests, EXAMPLES]
    lacking = missing("valgrind")
    yield (True, f"valgrind {lacking}") if lacking else run("valgrind", valgrind, work)
    # the C++ of the example, against the shared library
    shared = ["-L", dist / "lib", "-lcelbpf", f"-Wl,-rpath,{dist / 'lib'}"]
    words = ["c++", "-std=c++11", "-Wall", "-Wextra", "-Werror", "-I", dist / "include", "-o", work / "example", "-x", "c++", example]
    lacking = missing("c++")
    yield (True, f"C++ {lacking}") if lacking else run("building the example as C++", [*words, "-x", "none", *shared], work)
    replicas = EXAMPLES / "replicas"
    if not lacking:
        yield run("the example as C++", [work / "example", replicas / "policy.json", replicas / "three.review.json"], work)


def named_for_go(dist: Path, work: Path) -> dict[str, Any]:
    """What go needs of the environment, as `named_for_python` and `named_for_rust` for theirs."""
    return {
        "PKG_CONFIG_PATH": str(dist / "lib" / "pkgconfig"), "GOCACHE": str(work / "cache"), "GOFLAGS": "-mod=mod", "GOPROXY": "off",
        "CGO_ENABLED": "1",
    }


def named_for_python(dist: Path) -> dict[str, Any]:
    return {
        "CELBPF_LIBRARY": str(dist / "lib" / "libcelbpf.so.1"), "CELBPF_EXAMPLES": str(EXAMPLES), "PYTHONDONTWRITEBYTECODE": "1",
    }


def named_for_rust(dist: Path, work: Path) -> dict[str, Any]:
    return {"CELBPF_LIB_DIR": str(dist / "lib"), "CARGO_TARGET_DIR": str(work / "target")}


def in_go(dist: Path, work: Path, _: Optional[Path]) -> Told:
    if lacking := missing("go", "pkg-config"):
        yield True, lacking
        return
    names = named_for_go(dist, work)
    folder = EMBED / "go" / "celbpf"
    yield run("go vet", ["go", "vet", "./..."], folder, **names)
    yield run("go test -race", ["go", "test", "-race", "-count=1", "./..."], folder, **names)
    yield run("go test, cgocheck", ["go", "test", "-count=1", "./..."], folder, GODEBUG="cgocheck=2", **names)
    if can_be_unlimited():
        yield run("go test, threads of 2 MB", ["go", "test", "-count=1", "./..."], folder, before=unlimited, **names)
    else:
        yield True, "threads of 2 MB left out, since the limit of the stack cannot be raised"


def in_python(dist: Path, work: Path, program: Optional[Path]) -> Told:
    folder = EMBED / "python" / "celbpf"
    names = named_for_python(dist)
    if program:
        names["CELBPF_PROGRAM"] = str(program)
    words = [sys.executable, "-m", "unittest", "discover", "-t", ".", "-s", "tests"]
    yield run("the tests", words, folder, PYTHONPATH=str(folder), **names)


def in_rust(dist: Path, work: Path, _: Optional[Path]) -> Told:
    if lacking := missing("cargo"):
        yield True, lacking
        return
    words = ["cargo", "test", "-q", "--offline"]
    yield run("cargo test", words, EMBED / "rust" / "celbpf", **named_for_rust(dist, work))


LANGUAGES = {"C": in_c, "Go": in_go, "Python": in_python, "Rust": in_rust}
