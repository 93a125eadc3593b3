"""The pieces of a line, with their columns."""

import re
from dataclasses import dataclass

PIECE = re.compile(r"""(?P<blank>[ \t]+)|(?P<comment>[;#].*)|(?P<text>"(?:[^"\\]|\\.)*")|(?P<word>\.?[A-Za-z_][A-Za-z0-9_]*(?:\.size)?)"""
                   r"""|(?P<number>[0-9][A-Za-z0-9_]*)|(?P<mark>[-+,:\[\]])""")
NUMBER = re.compile(r"0|[1-9](?:_?[0-9])*|0x[0-9a-fA-F](?:_?[0-9a-fA-F])*")
# no number of 64 bits has more digits; Python converts no more than 4,300
LONGEST = 100
ESCAPE = re.compile(r"\\(?:x(?P<byte>[0-9a-fA-F]{2})|u\{(?P<point>[0-9a-fA-F]{1,6})\}|(?P<one>[nrt0\"\\]))|\\.?")
ONES = {"n": b"\n", "r": b"\r", "t": b"\t", "0": b"\0", '"': b'"', "\\": b"\\"}
END = "end"


class Fault(Exception):
    """What is wrong at a column of a line, counted from 1."""

    def __init__(self, column: int, why: str):
        super().__init__(why)
        self.column, self.why = column, why


@dataclass(frozen=True)
class Piece:
    """A word, a number, a text or a mark, or the end of the line."""

    kind: str
    text: str
    column: int

    @property
    def shown(self) -> str:
        """How a fault calls it."""
        return "the end of the line" if self.kind == END else f"`{self.text}`"


class Pieces:
    """The pieces of a line, of which the first that was not taken is the next."""

    def __init__(self, line: str):
        self.left: list[Piece] = []
        at = 0
        while at < len(line):
            found = PIECE.match(line, at)
            if not found:
                why = 'this text has no closing `"`' if line[at] == '"' else f"`{line[at]}` begins nothing that is known"
                raise Fault(at + 1, why)
            kind = str(found.lastgroup)
            if kind not in ("blank", "comment"):
                self.left.append(Piece(kind, found[0], at + 1))
            at = found.end()
        last = self.left[-1] if self.left else None
        self.end = Piece(END, "", last.column + len(last.text) if last else 1)

    @property
    def next(self) -> Piece:
        return self.left[0] if self.left else self.end

    def take(self) -> Piece:
        """Takes the next piece."""
        return self.left.pop(0) if self.left else self.end

    def takes(self, mark: str) -> bool:
        """Takes a mark, if it is next."""
        if self.next.kind == "mark" and self.next.text == mark:
            self.take()
            return True
        return False

    def demand(self, mark: str) -> None:
        """Takes a mark, which has to be next."""
        if not self.takes(mark):
            raise self.expected(f"`{mark}`")

    def demand_end(self) -> None:
        """Refuses more pieces."""
        if self.left:
            raise self.expected("the end of the line")

    def expected(self, what: str, more: str = "") -> Fault:
        """The fault that something else is next."""
        return Fault(self.next.column, f"{what} is expected, and here is {self.next.shown}{more}")

    def number(self, what: str) -> tuple[int, int]:
        """A number, with `-` or `+` before it if it has a sign, and its column."""
        column = self.next.column
        sign = -1 if self.takes("-") else 1
        if sign == 1:
            self.takes("+")
        if self.next.kind != "number":
            raise self.expected(what)
        piece = self.take()
        if not NUMBER.fullmatch(piece.text):
            why = "a number is decimal, or hex after 0x"
            if piece.text.isdecimal():
                why = "a number has no leading zeros"
            elif piece.text.endswith("_") or "__" in piece.text:
                why = "a number has `_` between two digits alone"
            raise Fault(piece.column, f"{piece.shown}: {why}")
        if len(piece.text) > LONGEST:
            raise Fault(piece.column, "the number does not fit 64 bits")
        return sign * int(piece.text.replace("_", ""), 16 if piece.text.startswith("0x") else 10), column


def bytes_of(piece: Piece) -> bytes:
    """The bytes of a text, whose characters are UTF-8."""
    inner, made, at = piece.text[1:-1], bytearray(), 0
    while at < len(inner):
        found = ESCAPE.match(inner, at)
        column = piece.column + 1 + at
        if not found:
            made += inner[at].encode("utf-8", "surrogatepass")
            at += 1
            continue
        if found["byte"]:
            made += bytes([int(found["byte"], 16)])
        elif found["one"]:
            made += ONES[found["one"]]
        elif found["point"] and is_scalar(int(found["point"], 16)):
            made += chr(int(found["point"], 16)).encode()
        else:
            raise Fault(column, r'an escape is one of \n, \r, \t, \0, \", \\, \xHH and \u{H..}' + f", and here is `{found[0]}`")
        at = found.end()
    return bytes(made)


def is_scalar(point: int) -> bool:
    """Whether a code point is one of a character."""
    return point < 0xD800 or 0xE000 <= point <= 0x10FFFF
