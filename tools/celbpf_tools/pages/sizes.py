"""The sizes in docs/READING.md: the totals of its table, and in the head of each step the lines of its files."""

import re
from typing import Any, Callable

ROW = re.compile(r"^(\| `(\w+)` \|.*?\|) [\d,]+ \| [\d,]+ \| [\d,]+ \|$", re.M)
STEP = re.compile(r"^(### .*), (\d+) lines$", re.M)
FILES = re.compile(r"`(\w+)`:((?:\s+`[A-Z][\w/]*`,?)+)")
FILE = re.compile(r"`([\w/]+)`")


def with_totals(text: str, totals: dict[str, Any]) -> str:
    """The page with these totals in its table: by the name of a contract its definitions, lines and files."""

    def row(found: re.Match[str]) -> str:
        if found[2] not in totals:
            return found[0]
        return f"{found[1]} {' | '.join(f'{number:,}' for number in totals[found[2]])} |"

    return ROW.sub(row, text)


def files_of(step: str) -> list[Any]:
    """The files of a step, each with its crate: names after a crate and a colon."""
    return [(crate, file) for crate, names in FILES.findall(step) for file in FILE.findall(names)]


def with_lines(text: str, lines_of: Callable[..., Any]) -> str:
    """The page with the lines in the heads of its steps, by the words of the head, a crate and a file."""
    heads = list(STEP.finditer(text))
    ends = [head.start() for head in heads[1:]] + [len(text)]
    parts = [text[: heads[0].start()]] if heads else [text]
    for head, end in zip(heads, ends):
        below = text[head.end() : end].split("\n## ")[0]
        lines = sum(lines_of(head[1], crate, file) for crate, file in files_of(below))
        parts.append(f"{head[1]}, {lines} lines{text[head.end() : end]}")
    return "".join(parts)
