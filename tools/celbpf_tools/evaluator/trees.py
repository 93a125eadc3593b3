"""The nodes of expressions, as they are read and as macros leave them."""

from dataclasses import dataclass
from typing import Any


@dataclass(frozen=True)
class Literal:
    """An int, a text, `true`, `false` or `null`."""

    value: Any


@dataclass(frozen=True)
class Name:
    """A root's or an iteration name, or a name that is neither."""

    name: str


@dataclass(frozen=True)
class Selection:
    """`operand.field`"""

    operand: object
    field: str


@dataclass(frozen=True)
class Call:
    """`function(a, b)`"""

    function: str
    arguments: tuple[Any, ...]


@dataclass(frozen=True)
class Method:
    """`target.method(a, b)`"""

    target: object
    method: str
    arguments: tuple[Any, ...]


@dataclass(frozen=True)
class Operation:
    """An operator before one operand or between two; `[]` is the index."""

    sign: str
    operands: tuple[Any, ...]


@dataclass(frozen=True)
class Ternary:
    """`condition ? chosen : other`"""

    condition: object
    chosen: object
    other: object


@dataclass(frozen=True)
class ListLiteral:
    """`[a, b]`"""

    items: tuple[Any, ...]


@dataclass(frozen=True)
class MapLiteral:
    """`{k: v}`, as pairs of a key and a value."""

    entries: tuple[Any, ...]


@dataclass(frozen=True)
class Variable:
    """`variables.name`, after expansion."""

    name: str


@dataclass(frozen=True)
class Has:
    """`has(operand.field)`, after expansion."""

    operand: object
    field: str


@dataclass(frozen=True)
class Macro:
    """`range.word(name, ..)`, after expansion; a part that does not stand is None."""

    word: str
    range: object
    name: str
    predicate: object
    transform: object


def parts(tree: Any) -> list[Any]:
    """The parts of a node, from left to right; those of a macro without its iteration name."""
    if isinstance(tree, (Selection, Has)):
        return [tree.operand]
    if isinstance(tree, Call):
        return list(tree.arguments)
    if isinstance(tree, Method):
        return [tree.target, *tree.arguments]
    if isinstance(tree, Operation):
        return list(tree.operands)
    if isinstance(tree, Ternary):
        return [tree.condition, tree.chosen, tree.other]
    if isinstance(tree, ListLiteral):
        return list(tree.items)
    if isinstance(tree, MapLiteral):
        return [part for entry in tree.entries for part in entry]
    if isinstance(tree, Macro):
        return [part for part in (tree.range, tree.predicate, tree.transform) if part is not None]
    return []
