"""Where a text of a document is in its file, by the line and the column."""

import re
from dataclasses import dataclass
from typing import Any, Optional, Union

from .. import documents
from . import yaml_texts

QUOTES = ("'", '"')
# how a character is written in a quoted text
ESCAPES = {
    "'": re.compile(r"''|[^']"),
    '"': re.compile(r'\\u[dD][89abAB]..\\u[dD][c-fC-F]..|\\x..|\\u....|\\U........|\\.|[^"\\]'),
}
# keys of maps, and places in lists
Path = tuple[Union[str, int], ...]


@dataclass(frozen=True)
class Position:
    """A line, and a column in it, both counted from 1; a column of 0 is not known."""

    line: int
    column: int = 0


class Marks:
    """The nodes of a file's documents, by the lines at which they begin."""

    def __init__(self, text: str):
        self.lines = text.split("\n")
        self.roots = [node for root in composed(text) for node in [root, *items_of(root)]]

    def position(self, line: int, path: Path, offset: int, text: str) -> Position:
        """The place of a character of the text at a path of the object that begins at a line."""
        for root in self.roots:
            node = scalar_at(root, path) if root.start_mark.line + 1 == line else None
            if node is not None:
                return self.within(node, offset, text)
        return Position(line)

    def of_key(self, line: int, path: Path) -> Position:
        """The place of a key or of an item of a list, in the object that begins at a line."""
        for root in self.roots:
            node = key_at(root, path) if path and root.start_mark.line + 1 == line else None
            if node is not None:
                return Position(node.start_mark.line + 1, node.start_mark.column + 1)
        return Position(line)

    def within(self, node: Any, offset: int, text: str) -> Position:
        """The place of a character of a scalar's text."""
        line, column = node.start_mark.line, node.start_mark.column
        if node.style == "|":
            row = text.count("\n", 0, offset)
            first = next((one for one in self.lines[line + 1 :] if one.strip()), "")
            return Position(line + 2 + row, len(first) - len(first.lstrip(" ")) + offset - (text.rfind("\n", 0, offset) + 1) + 1)
        if node.style == ">":
            return folded(self.lines[line + 1 :], offset, text, line + 2) or Position(line + 1, column + 1)
        begin, raw = column + (node.style in QUOTES), self.lines[line]
        if raw[begin : begin + len(text)] == text:
            return Position(line + 1, begin + offset + 1)
        return Position(line + 1, (quoted(raw, begin, offset, node.style) or column) + 1)


def folded(lines: list[str], offset: int, text: str, number: int) -> Optional[Position]:
    """The place of a character of a text whose lines, the first of which has this number, are joined by blanks."""
    indent = len(lines[0]) - len(lines[0].lstrip(" ")) if lines else 0
    at = 0
    for row, line in enumerate(lines):
        own = line[indent:]
        if not own or own[0] in " \t" or text[at : at + len(own)] != own:
            return None
        if offset < at + len(own):
            return Position(number + row, indent + offset - at + 1)
        at += len(own) + 1
    return None


def quoted(raw: str, begin: int, offset: int, style: str) -> int:
    """The place in a line of a character of a quoted text that begins there; 0 if the line ends before it."""
    at = begin
    for _ in range(offset):
        found = ESCAPES[style].match(raw, at) if style in QUOTES else None
        at = found.end() if found else len(raw)
    return at if at < len(raw) else 0


def composed(text: str) -> list[Any]:
    """The nodes of a text's documents; none if it is not read as YAML."""
    if not yaml_texts.has_yaml():
        return []
    try:
        yaml_texts.refuse_deep(text)
        return [node for node in documents.yaml_package().compose_all(text, yaml_texts.loader()) if node is not None]
    except (documents.yaml_package().YAMLError, yaml_texts.NotRead, ValueError):
        return []


def value_at(node: Any, key: Any) -> Optional[Any]:
    """The node of a key of a map, or of an item of a list."""
    if isinstance(key, int):
        is_item = isinstance(node, documents.yaml_package().SequenceNode) and key < len(node.value)
        return node.value[key] if is_item else None
    if not isinstance(node, documents.yaml_package().MappingNode):
        return None
    found = [value for name, value in node.value if name.value == key]
    return found[-1] if found else None


def items_of(root: Any) -> list[Any]:
    """The nodes of the items of a list."""
    items = value_at(root, "items")
    return list(items.value) if isinstance(items, documents.yaml_package().SequenceNode) else []


def key_at(node: Any, path: Path) -> Optional[Any]:
    """The node of the last key of a path, or of the item if it ends with a place in a list."""
    *before, last = path
    for key in before:
        node = value_at(node, key)
    if isinstance(last, int):
        return value_at(node, last)
    pairs = node.value if isinstance(node, documents.yaml_package().MappingNode) else []
    found = [name for name, _ in pairs if name.value == last]
    return found[-1] if found else None


def scalar_at(node: Any, path: Path) -> Optional[Any]:
    """The node of the text at a path."""
    for key in path:
        node = value_at(node, key)
        if node is None:
            return None
    return node if isinstance(node, documents.yaml_package().ScalarNode) else None
