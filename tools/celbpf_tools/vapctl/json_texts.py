"""Documents of JSON, with the line of each document and of each item of a list."""

import json
import re
from typing import Any, Callable, Iterator, NoReturn, Optional

from .located import Document, Located

BLANKS = re.compile(r"[ \t\n\r]*")
OPENING = re.compile(r"[ \t\n\r]*[{\[]")


def looks_like_json(text: str) -> bool:
    """Whether a text begins as an object or a list of JSON does."""
    return OPENING.match(text) is not None


def refused_constant(word: str) -> NoReturn:
    """JSON has no `NaN` and no `Infinity`."""
    raise ValueError(f"{word} is no JSON")


class Reader:
    """A text of JSON, read from its begin to its end. `has_floats` is set by a number with a fraction or an exponent."""

    def __init__(self, text: str):
        self.text = text
        self.has_floats = False
        self.counted, self.line = 0, 1
        decoder = json.JSONDecoder(parse_float=self.float_of, parse_constant=refused_constant)
        self.decode: Callable[[str, int], tuple[Any, int]] = decoder.raw_decode

    def float_of(self, text: str) -> float:
        self.has_floats = True
        return float(text)

    def line_at(self, at: int) -> int:
        """The line of a place, which is not before the one that was asked last."""
        self.line += self.text.count("\n", self.counted, at)
        self.counted = at
        return self.line

    def after_blanks(self, at: int) -> int:
        match = BLANKS.match(self.text, at)
        return match.end() if match else at

    def is_next(self, mark: str, at: int) -> bool:
        return self.text.startswith(mark, at)

    def take(self, mark: str, at: int) -> int:
        """The place after a mark and blanks; the mark has to be there."""
        if not self.is_next(mark, at):
            raise json.JSONDecodeError(f"Expecting '{mark}' delimiter", self.text, at)
        return self.after_blanks(at + 1)

    def documents(self) -> Iterator[Document]:
        """The documents one after another."""
        at = self.after_blanks(0)
        while at < len(self.text):
            self.has_floats, line = False, self.line_at(at)
            if self.is_next("{", at):
                value, items, at = self.object(at)
            else:
                (value, at), items = self.decode(self.text, at), None
            yield Document(value, line, items, self.has_floats)
            at = self.after_blanks(at)

    def object(self, at: int) -> tuple[dict[str, Any], Optional[list[Located]], int]:
        """An object, the items of its list `items` if it has one, and the place after it."""
        value: dict[str, Any] = {}
        items = None
        at = self.take("{", at)
        while not self.is_next("}", at):
            if value:
                at = self.take(",", at)
            if not self.is_next('"', at):
                raise json.JSONDecodeError("Expecting property name enclosed in double quotes", self.text, at)
            key, at = self.decode(self.text, at)
            at = self.take(":", self.after_blanks(at))
            if key == "items" and self.is_next("[", at):
                items, at = self.items(at)
                value[key] = [item.value for item in items]
            else:
                value[key], at = self.decode(self.text, at)
            at = self.after_blanks(at)
        return value, items if isinstance(value.get("items"), list) else None, at + 1

    def items(self, at: int) -> tuple[list[Located], int]:
        """The items of a list with their lines, and the place after the list."""
        found: list[Located] = []
        at = self.take("[", at)
        while not self.is_next("]", at):
            if found:
                at = self.take(",", at)
            line = self.line_at(at)
            item, at = self.decode(self.text, at)
            found.append(Located(item, line))
            at = self.after_blanks(at)
        return found, at + 1


def place_of(text: str, at: int) -> tuple[int, int]:
    """The line and the column of a place in a text, counted from 1."""
    return text.count("\n", 0, at) + 1, at - text.rfind("\n", 0, at)


def documents_of(text: str) -> Iterator[Document]:
    """The documents of a text of JSON. Raises `JSONDecodeError`, `ValueError` or `RecursionError`."""
    yield from Reader(text).documents()
