"""Reads the text format of protocol buffers into messages, without a schema.

A `Message` keeps each field's values in order. A scalar is a `str` for a quoted text and a `Word` for everything
else, as `17`, `true`, `NULL_VALUE` or `inf`. Extension and Any names in brackets are kept with the brackets.
"""

import re
from typing import Any, Iterator, Optional

TOKEN = re.compile(r"""
    (?P<gap>(?:\s|\#[^\n]*)+)
  | (?P<text>"(?:[^"\\\n]|\\.)*"|'(?:[^'\\\n]|\\.)*')
  | (?P<word>[-+.\w]+)
  | (?P<mark>[][{}<>:,;/])
""", re.X | re.S)
ESCAPE = re.compile(rb"\\(?:([0-7]{1,3})|[xX]([0-9a-fA-F]{1,2})|u([0-9a-fA-F]{4})|U([0-9a-fA-F]{8})|(.))", re.S)
SIMPLE = dict(zip(b"abfnrtv\\?\"'", b"\a\b\f\n\r\t\v\\?\"'"))
CLOSING = {"{": "}", "<": ">"}


class Malformed(Exception):
    """The text is not in the text format; the message says at which line."""


class Word(str):
    """A scalar that is not quoted."""


class Message:
    """The fields of a message, by their names."""

    def __init__(self) -> None:
        self.fields: dict[str, list[Any]] = {}

    def add(self, name: str, value: Any) -> None:
        """Appends a value to a field."""
        self.fields.setdefault(name, []).append(value)

    def all(self, name: str) -> list[Any]:
        """The values of a repeated field."""
        return self.fields.get(name, [])

    def one(self, name: str, default: Any = None) -> Any:
        """The last value of a field, as for a field that is not repeated."""
        return self.fields.get(name, [default])[-1]

    def only(self) -> tuple[str, Any]:
        """The name and value of a message that has one field; an empty name if it has none or several."""
        if len(self.fields) != 1:
            return "", None
        name, values = next(iter(self.fields.items()))
        return name, values[-1]


def unescaped(quoted: str) -> str:
    """The text of a quoted scalar. Escapes of bytes have to make UTF-8; other bytes become lone surrogates."""

    def byte(match: re.Match[bytes]) -> bytes:
        octal, hexadecimal, short, long, simple = match.groups()
        if octal:
            return bytes([int(octal, 8) & 0xFF])
        if hexadecimal:
            return bytes([int(hexadecimal, 16)])
        if short or long:
            return chr(int(short or long, 16)).encode("utf-8", "surrogatepass")
        return bytes([SIMPLE.get(simple[0], simple[0])])

    return ESCAPE.sub(byte, quoted[1:-1].encode()).decode("utf-8", "surrogateescape")


def tokens(text: str) -> Iterator[tuple[str, str, int]]:
    """The tokens: their kind, what is written, and the line from 1; at the end the kind `end`."""
    at, line = 0, 1
    while at < len(text):
        match = TOKEN.match(text, at)
        if match is None:
            raise Malformed(f"line {line}: no token begins with {text[at]!r}")
        kind = match.lastgroup or ""
        if kind != "gap":
            yield kind, match.group(), line
        line += match.group().count("\n")
        at = match.end()
    yield "end", "", line


class Reader:
    """Tokens that are read into a message."""

    def __init__(self, text: str):
        self.tokens = list(tokens(text))
        self.at = 0

    def is_next(self, *marks: str) -> bool:
        """Whether the next token is one of these marks; the end is an empty one."""
        kind, token, _ = self.tokens[self.at]
        return kind in ("mark", "end") and token in marks

    def taken(self, kind: str, written: Optional[str] = None) -> str:
        """The next token, which has to be of this kind and, if given, this one."""
        found, token, line = self.tokens[self.at]
        if found != kind or written not in (None, token):
            raise Malformed(f"line {line}: {token!r} and not {written or kind}")
        self.at += 1
        return token

    def message(self, closing: str = "") -> Message:
        """The fields up to the closing mark, or to the end of the text."""
        found = Message()
        while not self.is_next(closing):
            name = self.name()
            if self.is_next(":"):
                self.taken("mark")
            for value in self.values():
                found.add(name, value)
            if self.is_next(",", ";"):
                self.taken("mark")
        return found

    def name(self) -> str:
        """A field's name, or the name of an extension or of a type in brackets."""
        if not self.is_next("["):
            return self.taken("word")
        begin = self.at
        while not self.is_next("]", ""):
            self.at += 1
        self.taken("mark", "]")
        return "".join(token for _, token, _ in self.tokens[begin : self.at])

    def values(self) -> list[Any]:
        """One value, or those of a list in brackets."""
        if not self.is_next("["):
            return [self.value()]
        self.taken("mark", "[")
        found = []
        while not self.is_next("]"):
            found.append(self.value())
            if self.is_next(","):
                self.taken("mark")
        self.taken("mark", "]")
        return found

    def value(self) -> Any:
        """A message, a text with those that continue it, or a word."""
        for opening, closing in CLOSING.items():
            if self.is_next(opening):
                self.taken("mark")
                found = self.message(closing)
                self.taken("mark", closing)
                return found
        if self.tokens[self.at][0] != "text":
            return Word(self.taken("word"))
        said = ""
        while self.tokens[self.at][0] == "text":
            said += unescaped(self.taken("text"))
        return said


def read(text: str) -> Message:
    """The message of a text in the text format."""
    return Reader(text).message()
