"""The tokens of an expression's text, from the left, each as long as it can be."""

import re
from dataclasses import dataclass
from typing import Any, NoReturn, Optional

from .refused import Refused
from .values import GREATEST, LEAST

MOST_BYTES = 65_536
MOST_TOKENS = 4_096
GAP = re.compile(r"(?:[ \t\n\f\r]|//[^\n\r]*)*")
NAME = re.compile(r"[_a-zA-Z][_a-zA-Z0-9]*")
INT = re.compile(r"0x[0-9a-fA-F]+|[0-9]+")
QUOTE = re.compile(r"[rR]?[\"']")
MARK = re.compile(r"\|\||&&|<=|>=|==|!=|[?:<>+\-*/%!.,()\[\]{}]")
SIMPLE = dict(zip("abfnrtv\\?\"'`", "\a\b\f\n\r\t\v\\?\"'`"))
NUMBERED = re.compile(r"[xX]([0-9a-fA-F]{2})|u([0-9a-fA-F]{4})|U([0-9a-fA-F]{8})|([0-3][0-7]{2})")


@dataclass(frozen=True)
class Token:
    """A token with the byte where it begins; `kind` is `name`, `int`, `text` or `mark`."""

    place: int
    kind: str
    value: Any


class Tokens:
    """A text that is cut into tokens."""

    def __init__(self, text: str):
        self.text = text
        self.at = 0
        self.found: list[Token] = []

    def place(self, at: int) -> int:
        """The byte at which this character begins."""
        return len(self.text[:at].encode())

    def refuse(self, number: str, at: int) -> NoReturn:
        raise Refused(f"{number} at {self.place(at)}")

    def after_gap(self, at: int) -> int:
        """The place after blanks and comments."""
        gap = GAP.match(self.text, at)
        return gap.end() if gap else at

    def skip_gap(self) -> None:
        """Goes over blanks and comments."""
        self.at = self.after_gap(self.at)

    def sign_can_stand(self) -> bool:
        """Whether no operand ends before this place."""
        if not self.found:
            return True
        last = self.found[-1]
        if last.kind == "mark":
            return last.value not in (")", "]", "}")
        return last.kind == "name" and last.value == "in"

    def signed_digits(self) -> Optional[int]:
        """Where the digits stand that the sign here belongs to, or None."""
        if self.text[self.at] != "-" or not self.sign_can_stand():
            return None
        behind = self.after_gap(self.at + 1)
        return behind if INT.match(self.text, behind) else None

    def kind_here(self) -> str:
        """Which kind of token begins here; one that cannot be, or too many, is refused."""
        signed = self.signed_digits()
        for kind, begins in (("text", QUOTE), ("int", INT), ("name", NAME), ("mark", MARK)):
            if begins.match(self.text, self.at):
                break
        else:
            self.refuse("P1", self.at)
        if len(self.found) == MOST_TOKENS:
            self.refuse("P6", self.at)
        return "signed" if signed is not None else kind

    def int_at(self, digits: int, sign: int) -> tuple[Any, ...]:
        """The int whose digits stand there, and where they end."""
        spelled = spelled_at(INT, self.text, digits)
        number = sign * (int(spelled[2:], 16) if spelled.startswith("0x") else int(spelled))
        if not LEAST <= number <= GREATEST:
            self.refuse("P3", digits)
        return number, digits + len(spelled)

    def escape(self, begins: int, at: int) -> tuple[Any, ...]:
        """The character of the escape behind a backslash, and where it ends."""
        if self.text[at : at + 1] in SIMPLE:
            return SIMPLE[self.text[at]], at + 1
        spelled = NUMBERED.match(self.text, at)
        if not spelled:
            self.refuse("P2", begins)
        *hexadecimal, octal = spelled.groups()
        number = int(octal, 8) if octal else int(next(filter(None, hexadecimal)), 16)
        if 0xD800 <= number <= 0xDFFF or number > 0x10FFFF:
            self.refuse("P2", begins)
        return chr(number), spelled.end()

    def text_here(self) -> tuple[Any, ...]:
        """What the text literal here says, and where it ends."""
        begins = self.at
        opening = spelled_at(QUOTE, self.text, begins)
        raw, quote = len(opening) == 2, opening[-1]
        at, said = begins + len(opening), []
        while self.text[at : at + 1] != quote:
            if self.text[at : at + 1] in ("", "\n", "\r"):
                self.refuse("P2", begins)
            character, at = self.text[at], at + 1
            if character == "\\" and not raw:
                character, at = self.escape(begins, at)
            said.append(character)
        return "".join(said), at + 1

    def take(self) -> None:
        """Takes the token that begins here."""
        begins, kind, value = self.at, self.kind_here(), None
        if kind == "text":
            value, self.at = self.text_here()
        elif kind == "int":
            value, self.at = self.int_at(begins, 1)
        elif kind == "signed":
            value, self.at = self.int_at(self.signed_digits() or begins, -1)
        else:
            value = spelled_at(NAME if kind == "name" else MARK, self.text, begins)
            self.at = begins + len(value)
        kind = "int" if kind == "signed" else kind
        self.found.append(Token(self.place(begins), kind, value))


def spelled_at(form: re.Pattern[str], text: str, at: int) -> str:
    """What is spelled in a form at a place, or an empty text."""
    found = form.match(text, at)
    return found[0] if found else ""


def tokens(text: str) -> list[Token]:
    """The tokens of a text, or the first of P6, P1, P2 and P3."""
    if len(text.encode()) > MOST_BYTES:
        raise Refused(f"P6 at {MOST_BYTES}")
    cut = Tokens(text)
    cut.skip_gap()
    while cut.at < len(text):
        cut.take()
        cut.skip_gap()
    return cut.found
