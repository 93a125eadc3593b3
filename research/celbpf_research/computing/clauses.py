"""The clauses of a function: the patterns of each and its result."""

from typing import Any

from .sources import Clause, Definition, Source, indent, items
from .syntax import Reader
from .tokens import NotRead, Token, tokens

EQUALS = Token("name", "=")


def sides(clause: Clause) -> tuple[list[Token], list[Token]]:
    """The tokens on both sides of a clause's equals sign."""
    depth = 0
    for at, token in enumerate(clause.tokens):
        if token.kind == "mark":
            depth += (token.value in "({") - (token.value in ")}")
        if depth == 0 and token == EQUALS:
            return clause.tokens[:at], clause.tokens[at + 1 :]
    raise NotRead("a clause without a result")


def patterns(source: Source, definition: Definition, clause: Clause) -> list[tuple[Any, ...]]:
    """The patterns of a clause; implicit ones are left out."""
    left, _ = sides(clause)
    sign = Token("name", definition.name.strip("◌"))
    if left and left[0].value == definition.name:
        reader, found = Reader(left[1:], source.strengths), []
        while reader.at < len(reader.tokens):
            if reader.is_mark("{"):
                reader.skip_braces()
            else:
                found.append(reader.atom())
        return found
    if "◌" in definition.name and sign in left:
        at = left.index(sign)
        return [Reader(part, source.strengths).whole() for part in (left[:at], left[at + 1 :])]
    raise NotRead(f"a clause of {definition.name}")


def result(source: Source, clause: Clause) -> tuple[Any, ...]:
    """What a clause gives."""
    _, right = sides(clause)
    if right[:1] == [Token("name", "do")]:
        rest = clause.lines[1:]
        return steps(source, [tokens(" ".join(line.strip() for line in step)) for step in items(rest, indent(rest[0]))])
    return Reader(right, source.strengths).whole()


def steps(source: Source, found: list[list[Token]]) -> tuple[Any, ...]:
    """The steps of a `do`, each of which may bind a name for those after it."""
    first = found[0]
    if len(first) > 1 and first[1] == Token("name", "←"):
        value = Reader(first[2:], source.strengths).whole()
        return ("operator", ">>=", value, ("function", [first[0].value], steps(source, found[1:])))
    return Reader(first, source.strengths).whole()
