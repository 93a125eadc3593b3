"""The tree that an expression's tokens derive.

Each function reads what the grammar's rule of its name derives, from the next token on.
"""

from typing import Any, Callable

from .refused import Refused
from .tokens import tokens
from .trees import Call, ListLiteral, Literal, MapLiteral, Method, Name, Operation, Selection, Ternary

MOST_OPEN = 100
WORDS = {"true": True, "false": False, "null": None}
NOT_SELECTED = {*WORDS, "in"}
RESERVED = set(
    "as break const continue else for function if import let loop package namespace return var void while"
    .split()
)
# operators between two operands, from the loosest on
LEVELS = [["||"], ["&&"], ["<", "<=", ">", ">=", "==", "!=", "in"], ["+", "-"], ["*", "/", "%"]]
OPENING = {"(": ")", "[": "]", "{": "}"}


def is_selector(name: str) -> bool:
    """Whether a name can be selected."""
    return name not in NOT_SELECTED


def is_identifier(name: str) -> bool:
    """Whether a name can stand free."""
    return is_selector(name) and name not in RESERVED


class Reader:
    """Tokens that are read into a tree."""

    def __init__(self, text: str):
        self.tokens = tokens(text)
        self.end = len(text.encode())
        self.at = 0
        self.open = 0

    def place(self) -> Any:
        return self.tokens[self.at].place if self.at < len(self.tokens) else self.end

    def refuse(self) -> None:
        raise Refused(f"P4 at {self.place()}")

    def is_next(self, *words: str) -> bool:
        """Whether the next token is one of these marks or the name `in`."""
        if self.at == len(self.tokens):
            return False
        token = self.tokens[self.at]
        return token.kind in ("mark", "name") and token.value in words

    def next(self) -> Any:
        self.at += 1
        return self.tokens[self.at - 1].value

    def take(self, mark: str) -> None:
        """Goes over this mark, which has to come."""
        if not self.is_next(mark):
            self.refuse()
        self.at += 1

    def enter(self) -> str:
        """Goes over a bracket that opens, or a question mark."""
        if self.open == MOST_OPEN:
            raise Refused(f"P5 at {self.place()}")
        self.open += 1
        return self.next()

    def leave(self, mark: str) -> None:
        """Goes over the bracket that closes."""
        self.take(mark)
        self.open -= 1

    def expression(self) -> Any:
        condition = self.level(0)
        if not self.is_next("?"):
            return condition
        self.enter()
        chosen = self.level(0)
        self.take(":")
        other = self.expression()
        self.open -= 1
        return Ternary(condition, chosen, other)

    def level(self, number: int) -> Any:
        """An expression of the operators of this level and of tighter ones."""
        if number == len(LEVELS):
            return self.unary()
        left = self.level(number + 1)
        while self.is_next(*LEVELS[number]):
            sign = self.next()
            left = Operation(sign, (left, self.level(number + 1)))
        return left

    def unary(self) -> Any:
        sign = next((mark for mark in "!-" if self.is_next(mark)), "")
        count = 0
        while sign and self.is_next(sign):
            self.at += 1
            count += 1
        tree = self.member()
        for _ in range(count):
            tree = Operation(sign, (tree,))
        return tree

    def member(self) -> Any:
        tree = self.primary()
        while self.is_next(".", "["):
            if self.is_next("["):
                self.enter()
                tree = Operation("[]", (tree, self.expression()))
                self.leave("]")
                continue
            self.at += 1
            name = self.name(is_selector)
            tree = Method(tree, name, self.arguments()) if self.is_next("(") else Selection(tree, name)
        return tree

    def name(self, allowed: Callable[..., Any]) -> str:
        """The name that comes next and is allowed here."""
        if self.at == len(self.tokens) or self.tokens[self.at].kind != "name":
            self.refuse()
        if not allowed(self.tokens[self.at].value):
            self.refuse()
        return self.next()

    def arguments(self) -> tuple[Any, ...]:
        """What stands between the brackets of a call."""
        self.enter()
        found = []
        if not self.is_next(")"):
            found.append(self.expression())
            while self.is_next(","):
                self.at += 1
                found.append(self.expression())
        self.leave(")")
        return tuple(found)

    def primary(self) -> Any:
        if self.is_next(*OPENING):
            return self.bracketed()
        if self.at == len(self.tokens) or self.tokens[self.at].kind == "mark":
            self.refuse()
        token = self.tokens[self.at]
        if token.kind in ("int", "text"):
            return Literal(self.next())
        if token.value in WORDS:
            return Literal(WORDS[self.next()])
        name = self.name(is_identifier)
        return Call(name, self.arguments()) if self.is_next("(") else Name(name)

    def bracketed(self) -> Any:
        opening = self.enter()
        if opening == "(":
            tree = self.expression()
        elif opening == "[":
            tree = ListLiteral(self.series(self.expression, "]"))
        else:
            tree = MapLiteral(self.series(self.entry, "}"))
        self.leave(OPENING[opening])
        return tree

    def entry(self) -> tuple[Any, ...]:
        key = self.expression()
        self.take(":")
        return key, self.expression()

    def series(self, part: Callable[..., Any], closing: str) -> tuple[Any, ...]:
        """Parts with commas between them, and perhaps one behind them, also where there is none."""
        found = []
        if not self.is_next(closing, ","):
            found.append(part())
        while self.is_next(","):
            self.at += 1
            if self.is_next(closing):
                break
            if not found:
                self.refuse()
            found.append(part())
        return tuple(found)


def read(text: str) -> Any:
    """The tree of a text, or the first of P1 to P6."""
    reader = Reader(text)
    tree = reader.expression()
    if reader.at < len(reader.tokens):
        reader.refuse()
    return tree
