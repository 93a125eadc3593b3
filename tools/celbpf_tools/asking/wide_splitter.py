"""An expression's text in pieces, by the grammar of the language that gatekeeper reads.

Of a field, an index, an item or an entry with a question mark `word` is `?`, and of a literal that is no text and no
int it is the text itself. Parts of a list or a map after a question mark are in `optional`.
"""

import re
from dataclasses import dataclass, field
from typing import Any

from . import splitter
from .splitter import NotCut, Piece

EXPONENT = r"[eE][+-]?[0-9]+"
TOKEN = re.compile(
    r"(?P<gap>(?:[ \t\n\f\r]|//[^\n]*)+)"
    r"|(?P<text>[bB]?(?:[rR](?:'''.*?'''|\"\"\".*?\"\"\"|'[^'\n\r]*'|\"[^\"\n\r]*\")"
    r"|'''(?:\\.|[^\\])*?'''|\"\"\"(?:\\.|[^\\])*?\"\"\"|'(?:\\.|[^'\\\n\r])*'|\"(?:\\.|[^\"\\\n\r])*\"))"
    rf"|(?P<double>[0-9]*\.[0-9]+(?:{EXPONENT})?|[0-9]+{EXPONENT})"
    r"|(?P<uint>(?:0x[0-9a-fA-F]+|[0-9]+)[uU])"
    r"|(?P<int>0x[0-9a-fA-F]+|[0-9]+)"
    r"|(?P<name>[_a-zA-Z][_a-zA-Z0-9]*)"
    r"|(?P<quoted>`[A-Za-z0-9_.\-/ ]+`)"
    r"|(?P<mark>\|\||&&|<=|>=|==|!=|[?:<>+\-*/%!.,()\[\]{}])",
    re.DOTALL,
)
PAIRS = {
    ("all", 3): 2, ("exists", 3): 2, ("exists_one", 3): 2, ("existsOne", 3): 2, ("transformList", 3): 2,
    ("transformList", 4): 2,
}
OVER_OPTIONAL = {("optMap", 2): 1, ("optFlatMap", 2): 1}
# no macro, and written as one
LIKE_MACROS = {("existsOne", 2): 1}
# namespaces of functions, which are no names of values
NAMESPACES = ("sets", "optional", "math", "cel", "lists", "strings", "format", "regex", "base64", "authorizer")


@dataclass
class WidePiece(Piece):
    """A piece, with those of its parts that follow a question mark."""

    optional: list[Any] = field(default_factory=list)


class Reader(splitter.Reader):
    """Tokens of the language of clusters that are read into pieces."""

    form = TOKEN
    macros = {**splitter.Reader.macros, **PAIRS, **OVER_OPTIONAL, **LIKE_MACROS}

    def made(self, begin: int, kind: str, parts: list[Any], **named: Any) -> Piece:
        return WidePiece(begin, self.end(), kind, parts, **named)

    def takes_mark(self) -> str:
        """Takes a question mark if it comes, and answers it."""
        return self.take("?") if self.is_next("?") else ""

    def member(self) -> Piece:
        piece = self.primary()
        while self.is_next(".", "["):
            if self.take(".", "[") == ".":
                piece = self.behind_dot(piece)
                continue
            mark, inner = self.takes_mark(), self.expression()
            self.take("]")
            piece = self.made(piece.begin, "other", [piece, inner], form="index", word=mark)
        return piece

    def behind_dot(self, target: Piece) -> Piece:
        mark = self.takes_mark()
        kind, name = self.token()
        if not mark and kind == "name":
            return super().behind_dot(target)
        if kind not in ("name", "quoted"):
            raise NotCut
        self.at += 1
        return self.made(target.begin, "other", [target], form="field", name=name.strip("`"), word=mark)

    def primary(self) -> Piece:
        begin, (kind, text) = self.begin(), self.token()
        if self.is_next("["):
            return self.list_literal(begin)
        if self.is_next("."):
            self.take(".")
            piece = super().primary()
            piece.begin = begin
            return piece
        if kind in ("double", "uint"):
            self.at += 1
            return self.made(begin, "leaf", [], word=text)
        return super().primary()

    def list_literal(self, begin: int) -> Piece:
        found = self.series("[", lambda: (self.takes_mark(), self.expression()))
        return self.with_optional(self.made(begin, "other", [part for _, part in found], form="list"), found)

    def map_literal(self, begin: int) -> Piece:
        found = self.series("{", lambda: (self.takes_mark(), *self.entry()))
        made = self.made(begin, "other", [part for one in found for part in one[1:]], form="map")
        return self.with_optional(made, found)

    def with_optional(self, piece: Piece, found: list[Any]) -> Piece:
        """The piece of a literal, with its parts after a question mark, of an entry the value."""
        assert isinstance(piece, WidePiece)
        piece.optional = [one[-1] for one in found if one[0]]
        return piece


def cut(text: str) -> Piece:
    """The piece that is the whole expression, with its parts."""
    return splitter.cut(text, Reader)


def namespace_of(piece: Piece) -> str:
    """The namespace of a function that is called as a method, such as `sets`; empty if there is none."""
    target = piece.parts[0] if piece.form == "method" else None
    return target.word if target and target.kind == "leaf" and target.word in NAMESPACES else ""


def is_over_optional(piece: Piece) -> bool:
    """Whether a piece is a macro over an optional value."""
    return piece.kind == "macro" and (piece.word, 2) in OVER_OPTIONAL
