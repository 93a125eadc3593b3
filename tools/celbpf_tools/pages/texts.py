"""The text of a page: its indented blocks, its tables, and what stands in back quotes."""

import re
from typing import Any, Iterator

from ..home import ROOT

SPAN = re.compile(r"`` (.+?) ``|`([^`\n]+)`")


def read(name: str) -> Any:
    return (ROOT / name).read_text()


def spans(text: str) -> Any:
    """What stands in back quotes."""
    return [first or second for first, second in SPAN.findall(text)]


def blocks(text: str) -> Iterator[Any]:
    """The indented blocks, without their indent."""
    for block in re.findall(r"(?:^    .*\n)(?:^(?:    .*)?\n)*", text, re.M):
        yield "\n".join(line[4:] for line in block.rstrip("\n").split("\n")) + "\n"


def block(text: str, first: Any) -> Any:
    """The first block that begins so, or nothing."""
    return next((one for one in blocks(text) if one.startswith(first)), "")


def cells(row: Any) -> Any:
    """The cells of a table's row; a bar behind a backslash is a character of its cell."""
    return [cell.strip().replace("\\|", "|") for cell in re.split(r"(?<!\\)\|", row)[1:-1]]


def tables(text: str) -> Iterator[Any]:
    """For each table where it begins, the cells of its head, and those of its rows."""
    for table in re.finditer(r"(?:^\|.*\n)+", text, re.M):
        head, _, *rows = table.group().splitlines()
        yield table.start(), cells(head), [cells(row) for row in rows]
