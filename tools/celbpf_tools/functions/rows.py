"""The rows of the definitions: texts with the values that the proofs compute."""

import re
from pathlib import Path
from typing import Any, Callable, Iterator, Optional

from ..home import ROOT
from . import durations, timestamps, versions
from .versions import Version

ROW = re.compile(r"^  pub \w+ : (.*(?:\n      .*|\n    .*)*)", re.MULTILINE)
PIECE = re.compile(r'codes "([^"]*)"|0x([0-9a-f]+)')
INT = re.compile(r"(pos|negsuc) (\d+)")
FIELD = re.compile(r"(\w+) = (\d+)")
ORDERS = {"Less": -1, "Equal": 0, "Greater": 1}
PARTS = ["hours", "minutes", "seconds", "milliseconds"]


def text_of(words: str) -> bytes:
    """The bytes of a list."""
    pieces = (bytes([int(code, 16)]) if code else text.encode() for text, code in PIECE.findall(words))
    return b"".join(pieces)


def int_of(words: str) -> Optional[int]:
    found = INT.search(words)
    if not found:
        return None
    return int(found[2]) if found[1] == "pos" else -1 - int(found[2])


def version_of(words: str) -> Optional[Version]:
    numbers = dict(FIELD.findall(words))
    if not numbers:
        return None
    major, minor, patch = (int(numbers[name]) for name in ("major", "minor", "patch"))
    return Version(major, minor, patch, text_of(words.split("pre =")[1]))


def of_duration(left: str, right: str) -> tuple[Any, Any]:
    wanted = durations.FINE if "TooFine" in right else int_of(right)
    return durations.duration(text_of(left)), wanted


def of_part(name: str) -> Callable[[str, str], tuple[Any, Any]]:
    at = PARTS.index(name)
    return lambda left, right: (durations.parts(int_of(left) or 0)[at], int_of(right))


def of_timestamp(left: str, right: str) -> tuple[Any, Any]:
    return timestamps.timestamp(text_of(left)), int_of(right)


def of_fields(left: str, right: str) -> tuple[Any, Any]:
    return timestamps.fields(int_of(left) or 0), [int(number) for _, number in FIELD.findall(left)]


def of_version(left: str, right: str) -> tuple[Any, Any]:
    return versions.version("version_of true" in left, text_of(left)), version_of(right)


def of_pre(left: str, right: str) -> tuple[Any, Any]:
    first, second = re.findall(r'\(codes "[^"]*"\)|\[\]', left)
    return versions.pre_order(text_of(first), text_of(second)), ORDERS[right.strip()]


def of_precedence(left: str, right: str) -> tuple[Any, Any]:
    first, second = (version_of(words) for words in left.split("(record")[1:])
    assert first and second
    return versions.precedence(first, second), ORDERS[right.strip()]


# what a row begins with, and the model's value with the row's own
KINDS: dict[str, Callable[[str, str], tuple[Any, Any]]] = {
    "duration_of": of_duration,
    **{name: of_part(name) for name in PARTS},
    "timestamp_of": of_timestamp,
    "AreFields": of_fields,
    "version_of": of_version,
    "pre_cmp": of_pre,
    "precedence": of_precedence,
}


def rows() -> Iterator[tuple[str, Any, Any]]:
    """Each row that the model knows, its value in the model, and its own."""
    for crate in ("durations", "timestamps", "versions"):
        for row in ROW.findall(Path(ROOT, "crates", crate, "specs", "Rows.antt").read_text()):
            kind = KINDS.get(row.split()[0])
            if kind:
                left, _, right = row.partition("≡")
                yield (row, *kind(left, right))
