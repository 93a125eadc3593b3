"""The tree that the tokens of a wide text derive, with its macros expanded.

Each function reads what the grammar's rule of its name derives, from the next token on.
"""

from typing import Any, Callable

from ..evaluator.grammar import LEVELS, MOST_OPEN, OPENING, WORDS, is_identifier, is_selector
from .macros import expand
from .refused import refuse
from .tokens import Token, tokens
from .trees import Call, Field, Index, ListLiteral, Literal, MapLiteral, Method, Name, Operation, Ternary, Uint, parts

# the greatest depth of an expression
MOST_DEEP = 512


class Reader:
    """Tokens that are read into a tree."""

    def __init__(self, text: str):
        self.tokens: list[Token] = tokens(text)
        self.end = len(text.encode())
        self.at = 0
        self.open = 0

    def place(self) -> int:
        return self.tokens[self.at].place if self.at < len(self.tokens) else self.end

    def kind(self) -> str:
        """The kind of the next token, or no text at the end."""
        return self.tokens[self.at].kind if self.at < len(self.tokens) else ""

    def is_next(self, *words: str) -> bool:
        """Whether the next token is one of these marks or the name `in`."""
        return self.kind() in ("mark", "name") and self.tokens[self.at].value in words

    def next(self) -> Any:
        self.at += 1
        return self.tokens[self.at - 1].value

    def take(self, mark: str) -> None:
        """Takes this mark, which has to come."""
        if not self.is_next(mark):
            refuse("P4", self.place())
        self.at += 1

    def takes(self, mark: str) -> bool:
        """Takes this mark if it comes; whether it did."""
        if not self.is_next(mark):
            return False
        self.at += 1
        return True

    def enter(self) -> str:
        """Takes an opening bracket, or the question mark of a conditional."""
        if self.open == MOST_OPEN:
            refuse("P5", self.place())
        self.open += 1
        return self.next()

    def leave(self, mark: str) -> None:
        """Takes the closing bracket."""
        self.take(mark)
        self.open -= 1

    def expression(self) -> Any:
        begins = self.place()
        condition = self.level(0)
        if not self.is_next("?"):
            return condition
        self.enter()
        chosen = self.level(0)
        self.take(":")
        other = self.expression()
        self.open -= 1
        return Ternary(begins, condition, chosen, other)

    def level(self, number: int) -> Any:
        """An expression of the operators of this level and of tighter ones."""
        if number == len(LEVELS):
            return self.unary()
        begins = self.place()
        left = self.level(number + 1)
        while self.is_next(*LEVELS[number]):
            sign = self.next()
            left = Operation(begins, sign, (left, self.level(number + 1)))
        return left

    def unary(self) -> Any:
        """A member after operators of one kind, an even number of which is none."""
        begins, count = self.place(), 0
        sign = next((mark for mark in "!-" if self.is_next(mark)), "")
        while sign and self.takes(sign):
            count += 1
        tree = self.member()
        return Operation(begins, sign, (tree,)) if count % 2 else tree

    def member(self) -> Any:
        begins = self.place()
        tree = self.primary()
        while self.is_next(".", "["):
            if self.is_next("["):
                self.enter()
                optional = self.takes("?")
                tree = Index(begins, tree, self.expression(), optional)
                self.leave("]")
            else:
                self.at += 1
                tree = self.selected(begins, tree)
        return tree

    def selected(self, begins: int, tree: Any) -> Any:
        """A field or a method of a tree."""
        optional = self.takes("?")
        if self.kind() == "quoted":
            return Field(begins, tree, self.next(), optional)
        named = self.place()
        name = self.name(is_selector)
        if self.is_next("(") and not optional:
            return Method(begins, tree, name, self.arguments(), named)
        return Field(begins, tree, name, optional)

    def name(self, allowed: Callable[..., Any]) -> str:
        """The name that comes next and is allowed here."""
        if self.kind() != "name" or not allowed(self.tokens[self.at].value):
            refuse("P4", self.place())
        return self.next()

    def arguments(self) -> tuple[Any, ...]:
        """The expressions between the brackets of a call."""
        self.enter()
        found = []
        if not self.is_next(")"):
            found.append(self.expression())
            while self.takes(","):
                found.append(self.expression())
        self.leave(")")
        return tuple(found)

    def primary(self) -> Any:
        begins, kind = self.place(), self.kind()
        if self.is_next(*OPENING):
            return self.bracketed()
        if kind in ("int", "text"):
            return Literal(begins, self.next())
        if kind == "uint":
            return Uint(begins, self.next())
        if kind in ("bytes", "double"):
            refuse("W1" if kind == "bytes" else "W2", begins)
        if self.is_next(*WORDS):
            return Literal(begins, WORDS[self.next()])
        dotted = self.takes(".")
        name = self.name(is_identifier)
        if self.is_next("("):
            return Call(begins, name, self.arguments(), dotted)
        return Name(begins, name, dotted)

    def bracketed(self) -> Any:
        begins, opening = self.place(), self.enter()
        tree: Any
        if opening == "(":
            tree = self.expression()
        elif opening == "[":
            tree = ListLiteral(begins, self.series(self.item, "]"))
        else:
            tree = MapLiteral(begins, self.series(self.entry, "}"))
        self.leave(OPENING[opening])
        return tree

    def item(self) -> tuple[Any, ...]:
        return self.takes("?"), self.expression()

    def entry(self) -> tuple[Any, ...]:
        optional, key = self.takes("?"), self.expression()
        self.take(":")
        return optional, key, self.expression()

    def series(self, part: Callable[..., Any], closing: str) -> tuple[Any, ...]:
        """Parts with commas between them, and perhaps one at the end, even if there is no part."""
        found: list[tuple[Any, ...]] = []
        if not self.is_next(closing, ","):
            found.append(part())
        while self.takes(","):
            if self.is_next(closing):
                break
            if not found:
                refuse("P4", self.place())
            found.append(part())
        return tuple(found)


def depth(tree: Any) -> int:
    """The levels of a tree: one for a leaf, else one more than the deepest of its parts has."""
    deepest, rest = 0, [(tree, 1)]
    while rest:
        node, level = rest.pop()
        deepest = max(deepest, level)
        rest += [(part, level + 1) for part in parts(node)]
    return deepest


def read(text: str) -> Any:
    """The tree of a text, or the first of P1 to P6, W1 and W2 of a token, else of M1 to M3 and W3, else W10."""
    reader = Reader(text)
    tree = reader.expression()
    if reader.at < len(reader.tokens):
        refuse("P4", reader.place())
    tree = expand(tree)
    if depth(tree) > MOST_DEEP:
        refuse("W10", tree.place)
    return tree
