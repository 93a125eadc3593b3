"""The tokens of a wide text, from the left, each as long as possible."""

import re
from dataclasses import dataclass
from typing import Any, Optional

from ..evaluator.tokens import MOST_BYTES, MOST_TOKENS, NUMBERED, SIMPLE
from ..evaluator.values import GREATEST, LEAST
from .refused import refuse

# only a line feed ends a comment
GAP = re.compile(r"(?:[ \t\n\f\r]|//[^\n]*)*")
EXPONENT = r"[eE][+-]?[0-9]+"
TOKENS = [
    ("text", re.compile(r"[bB]?[rR]?(?:'''|\"\"\"|'|\")")),
    ("double", re.compile(rf"[0-9]*\.[0-9]+(?:{EXPONENT})?|[0-9]+{EXPONENT}")),
    ("int", re.compile(r"(0x[0-9a-fA-F]+|[0-9]+)([uU]?)")),
    ("name", re.compile(r"[_a-zA-Z][_a-zA-Z0-9]*")),
    ("quoted", re.compile(r"`([A-Za-z0-9_.\-/ ]+)`")),
    ("mark", re.compile(r"\|\||&&|<=|>=|==|!=|[?:<>+\-*/%!.,()\[\]{}]")),
]
# each is matched only where it is known to begin
FORMS: dict[str, Any] = dict(TOKENS)
GREATEST_UINT = 2**64 - 1


@dataclass(frozen=True)
class Token:
    """A token with the byte where it begins; `kind` is one of FORMS, or `uint`, or `bytes`."""

    place: int
    kind: str
    value: object


class Tokens:
    """A text that is cut into tokens."""

    def __init__(self, text: str):
        self.text = text
        self.at = 0
        self.found: list[Token] = []

    def place(self, at: int) -> int:
        """The byte at which this character begins."""
        return len(self.text[:at].encode())

    def skip_gap(self) -> None:
        """Skips blanks and comments."""
        self.at = self.gap_end(self.at)

    def gap_end(self, at: int) -> int:
        gap = GAP.match(self.text, at)
        return gap.end() if gap else at

    def kind_at(self, at: int) -> str:
        """The kind of the token that begins there, or no text."""
        return next((kind for kind, form in TOKENS if form.match(self.text, at)), "")

    def operand_ends(self) -> bool:
        """Whether the last token ends an operand, so that a `-` after it is no sign."""
        if not self.found:
            return False
        last = self.found[-1]
        if last.kind == "mark":
            return last.value in (")", "]", "}")
        return (last.kind, last.value) != ("name", "in")

    def signed_digits(self) -> Optional[int]:
        """Where the digits begin that the `-` here is the sign of, or None."""
        if self.text[self.at] != "-" or self.operand_ends():
            return None
        digits = self.gap_end(self.at + 1)
        # a uint or double has no sign of its own
        if self.kind_at(digits) != "int" or FORMS["int"].match(self.text, digits)[2]:
            return None
        return digits

    def take(self) -> None:
        """Takes the token that begins here."""
        begins, kind = self.at, self.kind_at(self.at)
        if not kind:
            refuse("P1", self.place(begins))
        if len(self.found) == MOST_TOKENS:
            refuse("P6", self.place(begins))
        digits = self.signed_digits()
        value: object
        if digits is not None:
            kind, value, self.at = self.int_at(digits, -1)
        elif kind == "int":
            kind, value, self.at = self.int_at(begins, 1)
        elif kind == "text":
            kind, value, self.at = self.text_at(begins)
        else:
            spelled = FORMS[kind].match(self.text, begins)
            value, self.at = spelled[1 if kind == "quoted" else 0], spelled.end()
        self.found.append(Token(self.place(begins), kind, value))

    def int_at(self, digits: int, sign: int) -> tuple[Any, ...]:
        """The kind and number of the int or uint there, and where it ends."""
        spelled = FORMS["int"].match(self.text, digits)
        number = int(spelled[1], 16 if spelled[1].startswith("0x") else 10) * sign
        least, greatest = (0, GREATEST_UINT) if spelled[2] else (LEAST, GREATEST)
        if not least <= number <= greatest:
            refuse("P3", self.place(digits))
        return "uint" if spelled[2] else "int", number, spelled.end()

    def text_at(self, begins: int) -> tuple[Any, ...]:
        """The kind and value of the text or bytes literal there, and where it ends."""
        opening = FORMS["text"].match(self.text, begins)[0]
        prefix = opening.rstrip("'\"").lower()
        quote = opening[len(prefix):]
        at, said = begins + len(opening), []
        while not self.text.startswith(quote, at):
            if at == len(self.text) or len(quote) == 1 and self.text[at] in "\n\r":
                refuse("P2", self.place(begins))
            character, at = self.text[at], at + 1
            if character == "\\" and "r" not in prefix:
                character, at = self.escape(begins, at)
            said.append(character)
        return "bytes" if "b" in prefix else "text", "".join(said), at + len(quote)

    def escape(self, begins: int, at: int) -> tuple[Any, ...]:
        """The character of the escape after a backslash, and where it ends."""
        if self.text[at : at + 1] in SIMPLE:
            return SIMPLE[self.text[at]], at + 1
        spelled = NUMBERED.match(self.text, at)
        if not spelled:
            refuse("P2", self.place(begins))
        *hexadecimal, octal = spelled.groups()
        number = int(octal, 8) if octal else int(next(filter(None, hexadecimal)), 16)
        if 0xD800 <= number <= 0xDFFF or number > 0x10FFFF:
            refuse("P2", self.place(begins))
        return chr(number), spelled.end()


def tokens(text: str) -> list[Any]:
    """The tokens of a text, or the first of P6, P1, P2 and P3."""
    if len(text.encode()) > MOST_BYTES:
        refuse("P6", MOST_BYTES)
    cut = Tokens(text)
    cut.skip_gap()
    while cut.at < len(text):
        cut.take()
        cut.skip_gap()
    return cut.found
