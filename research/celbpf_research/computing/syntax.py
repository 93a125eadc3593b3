"""Expressions of the definitions as tuples: their kind, and then their parts.

    ("number", n) ("text", s) ("unit",) ("name", word) ("path", words) ("tuple", parts) ("apply", function, arguments)
    ("operator", sign, left, right) ("if", test, one, other) ("let", name, value, rest) ("function", names, result)
    ("elim", value, cases): cases of constructors without arguments
    ("record", base or None, fields) ("field", value, name)
    ("implies", left, right) ("both", left, right) ("all", names, result) ("some",): statements; the last is not looked into
"""

from typing import Any, Optional

from .tokens import NotRead, Token

# the binding strength of the operators that the toolchain declares, and on which side they group
STRENGTHS = {
    "→": (0, "right"), "↔": (1, "none"), "⊎": (2, "right"), "×": (3, "right"), "≡": (4, "none"), "≢": (4, "none"),
    "∷": (5.5, "right"), "++": (5.5, "right"), "+ℤ": (6, "left"), "-ℤ": (6, "left"), "*ℤ": (7, "left"),
    ">>=": (10, "left"), "||": (30, "left"), "&&": (35, "left"), "==": (40, "none"), "<": (50, "none"), "≤": (50, "none"),
    "<ℤ": (50, "none"), "≤ℤ": (50, "none"), "+": (65, "left"), "-": (65, "left"), "*": (70, "left"), "/": (70, "left"),
    "%": (70, "left"), "^": (75, "right"),
}  # fmt: skip
ENDS = {")", "}", ";", ",", "then", "else", "in", "=", ":", "", "|", "]"}
OPENERS = ("λ", "let", "if", "elim")
ELSE = 5
END = Token("end", "")


class Reader:
    """Reads expressions from tokens, with the operators of a file."""

    def __init__(self, found: list[Token], strengths: dict[str, Any]):
        self.tokens, self.at, self.strengths = found, 0, strengths

    def peek(self, ahead: int = 0) -> Token:
        at = self.at + ahead
        return self.tokens[at] if at < len(self.tokens) else END

    def next(self) -> Token:
        token = self.peek()
        self.at += 1
        return token

    def want(self, value: str) -> None:
        token = self.next()
        if token.value != value:
            raise NotRead(f"{token.value} for {value}")

    def is_mark(self, value: str) -> bool:
        return self.peek() == Token("mark", value)

    def whole(self) -> tuple[Any, ...]:
        """The expression that all tokens are."""
        read = self.expression()
        if self.peek() is not END:
            raise NotRead(f"{self.peek().value} after an expression")
        return read

    def expression(self, low: float = 0) -> tuple[Any, ...]:
        """An expression of operators that bind at least so strongly."""
        left = self.operand()
        while self.peek().kind == "name" and self.peek().value in self.strengths:
            sign = self.peek().value
            strength, side = self.strengths[sign]
            if strength < low:
                break
            self.next()
            right = self.expression(strength if side == "right" else strength + 0.01)
            left = {"→": ("implies", left, right), "×": ("both", left, right)}.get(sign, ("operator", sign, left, right))
        return left

    def operand(self) -> tuple[Any, ...]:
        if names := self.binder():
            sign = self.peek().value
            if sign in ("→", "×"):
                self.next()
            result = self.expression(3 if sign == "×" else 0)
            return ("some",) if sign == "×" else ("all", names, result)
        if self.peek().kind == "name" and self.peek().value in OPENERS:
            return self.opened()
        function, arguments = self.atom(), []
        while True:
            token = self.peek()
            if token == Token("mark", "{"):
                self.skip_braces()
            elif token.kind == "name" and token.value in ("λ", "let"):
                arguments.append(self.opened())
                break
            elif self.begins_atom(token):
                arguments.append(self.atom())
            else:
                break
        return ("apply", function, arguments) if arguments else function

    def begins_atom(self, token: Token) -> bool:
        if token.kind == "name":
            return token.value not in ENDS and token.value not in self.strengths and token.value != "if"
        return token.kind in ("text", "number", "path") or token == Token("mark", "(")

    def binder(self) -> list[str]:
        """The names that come next with their type in brackets, and are passed over; none if there are none."""
        if not (self.is_mark("(") or self.is_mark("{")):
            return []
        ahead = 1
        while self.peek(ahead).kind == "name" and self.peek(ahead).value != ":":
            ahead += 1
        if ahead == 1 or self.peek(ahead) != Token("name", ":"):
            return []
        names = [self.peek(at).value for at in range(1, ahead)]
        close = ")" if self.is_mark("(") else "}"
        self.at += ahead + 1
        self.expression()
        self.want(close)
        return names

    def skip_braces(self) -> None:
        """Passes over an implicit argument."""
        depth = 0
        while True:
            token = self.next()
            depth += (token == Token("mark", "{")) - (token == Token("mark", "}"))
            if token is END:
                raise NotRead("a brace that stays open")
            if not depth:
                return

    def opened(self) -> tuple[Any, ...]:
        """A function, a `let`, an `elim` or an `if`."""
        word = self.next().value
        if word == "λ":
            return self.function()
        if word == "let":
            return self.let()
        if word == "elim":
            return self.elim()
        test = self.expression()
        self.want("then")
        one = self.expression()
        self.want("else")
        return ("if", test, one, self.expression(ELSE))

    def function(self) -> tuple[Any, ...]:
        names = []
        while (token := self.next()).kind != "dot":
            if token == Token("mark", "("):
                names.append(self.next().value)
                while self.next() != Token("mark", ")"):
                    pass
            elif token == Token("mark", "{"):
                self.at -= 1
                self.skip_braces()
            elif token.kind == "name":
                names.append(token.value)
            else:
                raise NotRead(f"{token.value} among the names of a function")
        return ("function", names, self.expression())

    def let(self) -> tuple[Any, ...]:
        name = self.next().value
        if self.peek().value == ":":
            self.next()
            self.expression()
        self.want("=")
        value = self.expression()
        self.want("in")
        return ("let", name, value, self.expression())

    def elim(self) -> tuple[Any, ...]:
        value, cases = self.atom(), []
        self.want("[")
        while True:
            pattern = self.atom()
            self.want("↦")
            cases.append((pattern, self.expression()))
            end = self.next().value
            if end == "]":
                return ("elim", value, cases)
            if end != "|":
                raise NotRead(f"{end} after a case")

    def atom(self) -> tuple[Any, ...]:
        token = self.next()
        if token.kind in ("number", "text", "path"):
            return (token.kind, token.value)
        if token == Token("mark", "("):
            return self.with_fields(self.bracketed())
        if token == Token("name", "record"):
            return self.with_fields(self.record())
        if token.kind == "name" and token.value not in ENDS:
            return ("name", token.value)
        raise NotRead(f"{token.value} where an expression begins")

    def bracketed(self) -> tuple[Any, ...]:
        parts = []
        while not self.is_mark(")"):
            parts.append(self.expression())
            if not self.is_mark(")"):
                self.want(",")
        is_tuple = len(parts) > 1
        self.next()
        return ("tuple", parts) if is_tuple else parts[0] if parts else ("unit",)

    def record(self) -> tuple[Any, ...]:
        base: Optional[tuple[Any, ...]] = None if self.is_mark("{") else self.atom()
        self.want("{")
        found = []
        while not self.is_mark("}"):
            name = self.next().value
            self.want("=")
            found.append((name, self.expression()))
            if self.is_mark(";"):
                self.next()
        self.next()
        return ("record", base, found)

    def with_fields(self, value: tuple[Any, ...]) -> tuple[Any, ...]:
        while self.peek().kind == "field":
            value = ("field", value, self.next().value)
        return value
