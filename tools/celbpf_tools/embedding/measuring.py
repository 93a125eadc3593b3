"""How fast the library decides, from each language."""

import json
import os
import shutil
import subprocess
import sys
from pathlib import Path
from typing import Any, Iterator

from ..entry import Stop
from ..home import EXAMPLES
from .building import EMBED, compiler, ran
from .callers import flags_of, named_for_go, named_for_python, named_for_rust

REPLICAS = EXAMPLES / "replicas"


def shown(words: list[Any], folder: Path, **names: str) -> list[Any]:
    """The lines that a command prints."""
    done = subprocess.run(
        [str(word) for word in words], cwd=folder, env={**os.environ, **names}, capture_output=True, text=True, check=False
    )
    if done.returncode:
        raise Stop(f"{words[0]} failed: {done.stderr.strip()}", 1)
    return done.stdout.strip().splitlines()


def large_review(work: Path) -> Path:
    """A review of a megabyte, most of it annotations."""
    document = json.loads((REPLICAS / "five.review.json").read_text())
    document["request"]["object"]["metadata"] = {"annotations": {f"note-{n:05}": "x" * 85 for n in range(10_000)}}
    path = work / "large.review.json"
    path.write_text(json.dumps(document, separators=(",", ":")))
    return path


def in_c(dist: Path, work: Path) -> Iterator[str]:
    benchmark = work / "benchmark"
    ran([compiler(), "-std=c11", "-O2", "-o", benchmark, EMBED / "c" / "tests" / "benchmark.c", *flags_of(dist)])
    containers = EXAMPLES / "containers"
    for folder, review in (
        (REPLICAS, REPLICAS / "five.review.json"), (containers, containers / "plain.review.json"), (REPLICAS, large_review(work)),
    ):
        for threads in (1, 4):
            lines = shown([benchmark, folder / "policy.json", review, "2", str(threads)], work)
            yield f"{folder.name}, a review of {review.stat().st_size:,} bytes: {'; '.join(lines)}"


def measured(dist: Path, work: Path) -> Iterator[str]:
    """A line for each figure, with its language."""
    for line in in_c(dist, work):
        yield f"C: {line}"
    if shutil.which("go") and shutil.which("pkg-config"):
        words = ["go", "test", "-run", "none", "-bench", ".", "-benchtime", "1s", "-cpu", "1,4"]
        for line in shown(words, EMBED / "go" / "celbpf", **named_for_go(dist, work)):
            if line.startswith("Benchmark"):
                yield f"Go: {' '.join(line.split())}"
    folder = EMBED / "python" / "celbpf"
    yield f"Python: {shown([sys.executable, 'benchmark.py'], folder, PYTHONPATH=str(folder), **named_for_python(dist))[-1]}"
    if shutil.which("cargo"):
        yield f"Rust: {shown(['cargo', 'bench', '-q', '--offline'], EMBED / 'rust' / 'celbpf', **named_for_rust(dist, work))[-1]}"
