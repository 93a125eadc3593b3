"""The nodes of wide expressions.

Each node has the byte where it begins, which equality ignores: two texts with the same tree are equal.
"""

from dataclasses import dataclass, field
from typing import Any


@dataclass(frozen=True)
class Node:
    """A tree that begins at a byte of its text."""

    place: int = field(compare=False)


@dataclass(frozen=True)
class Literal(Node):
    """An int, a text, `true`, `false` or `null`."""

    value: object


@dataclass(frozen=True)
class Uint(Node):
    """`1u`"""

    number: int


@dataclass(frozen=True)
class Name(Node):
    """A name; `dotted` if a dot precedes it, which names a root even inside a macro."""

    name: str
    dotted: bool = False


@dataclass(frozen=True)
class Field(Node):
    """`operand.name`, or `operand.?name` if it is optional."""

    operand: Any
    name: str
    optional: bool = False


@dataclass(frozen=True)
class Index(Node):
    """`operand[key]`, or `operand[?key]` if it is optional."""

    operand: Any
    key: Any
    optional: bool = False


@dataclass(frozen=True)
class Has(Node):
    """`has(operand.name)`"""

    operand: Any
    name: str


@dataclass(frozen=True)
class Operation(Node):
    """An operator before one operand or between two."""

    sign: str
    operands: tuple[Any, ...]


@dataclass(frozen=True)
class Ternary(Node):
    """`condition ? chosen : other`"""

    condition: Any
    chosen: Any
    other: Any


@dataclass(frozen=True)
class ListLiteral(Node):
    """`[a, ?b]`: pairs of whether an item is optional, and the item."""

    items: tuple[Any, ...]


@dataclass(frozen=True)
class MapLiteral(Node):
    """`{k: a, ?k: b}`: triples of whether an entry is optional, its key and its value."""

    entries: tuple[Any, ...]


@dataclass(frozen=True)
class Call(Node):
    """`function(a, b)`; `dotted` if a dot precedes the name."""

    function: str
    arguments: tuple[Any, ...]
    dotted: bool = False


@dataclass(frozen=True)
class Method(Node):
    """`target.method(a, b)`; `named` is the byte where the method's name begins."""

    target: Any
    method: str
    arguments: tuple[Any, ...]
    named: int = field(compare=False, default=0)


@dataclass(frozen=True)
class Macro(Node):
    """`range.word(name, .., predicate, transform)` with one or two names; a missing part is None."""

    word: str
    range: Any
    names: tuple[Any, ...]
    predicate: Any
    transform: Any
    named: int = field(compare=False, default=0)


def bodies(macro: Macro) -> list[Any]:
    """The predicate and the transform of a macro, as far as it has them."""
    return [part for part in (macro.predicate, macro.transform) if part is not None]


def parts(tree: Any) -> list[Any]:
    """The parts of a node, from left to right."""
    if isinstance(tree, (Field, Has)):
        return [tree.operand]
    if isinstance(tree, Index):
        return [tree.operand, tree.key]
    if isinstance(tree, Operation):
        return list(tree.operands)
    if isinstance(tree, Ternary):
        return [tree.condition, tree.chosen, tree.other]
    if isinstance(tree, ListLiteral):
        return [item for _, item in tree.items]
    if isinstance(tree, MapLiteral):
        return [part for _, key, value in tree.entries for part in (key, value)]
    if isinstance(tree, Call):
        return list(tree.arguments)
    if isinstance(tree, Method):
        return [tree.target, *tree.arguments]
    if isinstance(tree, Macro):
        return [tree.range, *bodies(tree)]
    return []
