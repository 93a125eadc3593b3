"""An expression's text in pieces: for each operand, argument, item and branch its place in the text.

It goes by the grammar of docs/CEL.md and asks no meaning; a text that it cannot cut has no pieces.
"""

import re
from dataclasses import dataclass, field
from typing import Any, Callable, Iterator

TOKEN = re.compile(
    r"(?P<gap>(?:[ \t\n\f\r]|//[^\n]*)+)"
    r"|(?P<text>[rR]\"[^\"\n\r]*\"|[rR]'[^'\n\r]*'|\"(?:\\.|[^\"\\\n\r])*\"|'(?:\\.|[^'\\\n\r])*')"
    r"|(?P<int>0x[0-9a-fA-F]+|[0-9]+)"
    r"|(?P<name>[_a-zA-Z][_a-zA-Z0-9]*)"
    r"|(?P<mark>\|\||&&|<=|>=|==|!=|[?:<>+\-*/%!.,()\[\]{}])"
)
# operators between two operands, from the loosest on
LEVELS = [("||",), ("&&",), ("<", "<=", ">", ">=", "==", "!=", "in"), ("+", "-"), ("*", "/", "%")]
MACROS = {"all": (2,), "exists": (2,), "exists_one": (2,), "filter": (2,), "map": (2, 3)}
CLOSING = {"(": ")", "[": "]", "{": "}"}
WORD = re.compile(r"[_a-zA-Z][_a-zA-Z0-9]*")


class NotCut(Exception):
    """A text that is not cut."""


@dataclass
class Piece:
    """A piece with its place in the text; its parts in the order in which they are evaluated.

    `kind` is `leaf`, `ternary`, `macro` or `other`. A macro's first part is its range, and `name` stands for an
    item in those behind it; `word` is which macro it is. Of others `form` is the operator between two operands, or
    `not`, `minus`, `field`, `index`, `method`, `call`, `has`, `list`, `map` or `brackets`; `name` is the name of a
    field, a method or a function.
    """

    begin: int
    end: int
    kind: str = "other"
    parts: list[Any] = field(default_factory=list)
    word: str = ""
    name: str = ""
    form: str = ""


class Reader:
    """Tokens that are read into pieces."""

    form = TOKEN
    # the number of names and of arguments of each form of a macro
    macros = {(word, count): 1 for word, counts in MACROS.items() for count in counts}

    def __init__(self, text: str):
        self.tokens = list(tokens(text, self.form))
        self.at = 0

    def token(self, ahead: int = 0) -> tuple[Any, ...]:
        """The kind and the text of a token, or empty ones behind the last."""
        at = self.at + ahead
        return self.tokens[at][:2] if at < len(self.tokens) else ("", "")

    def is_next(self, *words: str, ahead: int = 0) -> bool:
        kind, text = self.token(ahead)
        return kind in ("mark", "name") and text in words

    def begin(self) -> int:
        return self.tokens[self.at][2] if self.at < len(self.tokens) else self.end()

    def end(self) -> int:
        """Where the last token that was taken ends."""
        return self.tokens[self.at - 1][3] if self.at else 0

    def take(self, *words: str) -> str:
        """Takes the next token, which has to be one of these."""
        if not self.is_next(*words):
            raise NotCut
        self.at += 1
        return self.tokens[self.at - 1][1]

    def expression(self) -> Piece:
        condition = self.level(0)
        if not self.is_next("?"):
            return condition
        self.take("?")
        chosen = self.level(0)
        self.take(":")
        return self.made(condition.begin, "ternary", [condition, chosen, self.expression()])

    def made(self, begin: int, kind: str, parts: list[Any], **named: str) -> Piece:
        return Piece(begin, self.end(), kind, parts, **named)

    def level(self, number: int) -> Piece:
        if number == len(LEVELS):
            return self.unary()
        left = self.level(number + 1)
        while self.is_next(*LEVELS[number]):
            sign = self.take(*LEVELS[number])
            left = self.made(left.begin, "other", [left, self.level(number + 1)], form=sign)
        return left

    def unary(self) -> Piece:
        begins, sign = [], next((mark for mark in "!-" if self.is_next(mark)), None)
        while sign and self.is_next(sign) and not self.is_signed_int():
            begins.append(self.begin())
            self.take(sign)
        piece = self.member()
        for begin in reversed(begins):
            piece = self.made(begin, "other", [piece], form={"!": "not", "-": "minus"}[str(sign)])
        return piece

    def is_signed_int(self) -> bool:
        return self.is_next("-") and self.token(1)[0] == "int"

    def member(self) -> Piece:
        piece = self.primary()
        while self.is_next(".", "["):
            if self.take(".", "[") == "[":
                inner = self.expression()
                self.take("]")
                piece = self.made(piece.begin, "other", [piece, inner], form="index")
            else:
                piece = self.behind_dot(piece)
        return piece

    def behind_dot(self, target: Piece) -> Piece:
        kind, name = self.token()
        if kind != "name":
            raise NotCut
        self.at += 1
        if self.is_next("("):
            return self.method(target, name)
        is_variable = target.kind == "leaf" and target.word == "variables"
        if is_variable:
            return self.made(target.begin, "leaf", [])
        return self.made(target.begin, "other", [target], form="field", name=name)

    def method(self, target: Piece, word: str) -> Piece:
        given = self.series("(", self.expression)
        count = self.macros.get((word, len(given)), 0)
        names = given[:count]
        if count and all(one.kind == "leaf" and WORD.fullmatch(one.word) for one in names):
            name = " ".join(one.word for one in names)
            return self.made(target.begin, "macro", [target, *given[count:]], word=word, name=name)
        if word in MACROS:
            return self.made(target.begin, "other", [target])
        return self.made(target.begin, "other", [target, *given], form="method", name=word)

    def primary(self) -> Piece:
        begin, (kind, text) = self.begin(), self.token()
        if self.is_next("("):
            self.take("(")
            piece = self.expression()
            self.take(")")
            piece.begin, piece.end = begin, self.end()
            return piece
        if self.is_next("["):
            return self.made(begin, "other", self.series("[", self.expression), form="list")
        if self.is_next("{"):
            return self.map_literal(begin)
        self.at += 2 if self.is_signed_int() else 1
        if kind not in ("int", "text", "name") and text != "-":
            raise NotCut
        if kind == "name" and self.is_next("("):
            return self.call(begin, text)
        return self.made(begin, "leaf", [], word=text)

    def map_literal(self, begin: Any) -> Any:
        entries = self.series("{", self.entry)
        return self.made(begin, "other", [part for entry in entries for part in entry], form="map")

    def call(self, begin: Any, function: Any) -> Any:
        given = self.series("(", self.expression)
        # what `has` selects from is evaluated, the selection is not
        if function == "has" and given:
            return self.made(begin, "other", given[0].parts, form="has", name=given[0].name)
        return self.made(begin, "other", given, form="call", name=function)

    def entry(self) -> Any:
        key = self.expression()
        self.take(":")
        return key, self.expression()

    def series(self, opening: str, part: Callable[..., Any]) -> list[Any]:
        """Parts between brackets, with commas between them and perhaps one behind them."""
        closing = CLOSING[self.take(opening)]
        found: list[Any] = []
        while not self.is_next(closing):
            if found or self.is_next(","):
                self.take(",")
                if self.is_next(closing):
                    break
            found.append(part())
        self.take(closing)
        return found


def tokens(text: str, form: re.Pattern[str]) -> Iterator[Any]:
    """The tokens of a text by this form: kind, text, begin and end."""
    at = 0
    while at < len(text):
        found = form.match(text, at)
        if not found:
            raise NotCut
        if found.lastgroup != "gap":
            yield found.lastgroup, found.group(), at, found.end()
        at = found.end()


def cut(text: str, reader_of: type = Reader) -> Piece:
    """The piece that is the whole expression, with its parts."""
    reader = reader_of(text)
    piece = reader.expression()
    if reader.at < len(reader.tokens):
        raise NotCut
    return piece
