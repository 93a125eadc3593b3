"""An expression's tree, in which each node knows its place in the text.

The tree is the evaluator's, with macros expanded; the places are those of the pieces into which the text is cut. Both
have the same parts in the same order.
"""

from dataclasses import dataclass, field
from typing import Any

from ..asking.splitter import NotCut, Piece, cut
from ..evaluator import grammar, macros
from ..evaluator.refused import Refused
from ..evaluator.trees import parts


class NotRead(Exception):
    """A text that is no expression, or whose pieces are not those of its tree."""


@dataclass(eq=False)
class Node:
    """A node of an expanded tree; its text is from `begin` to before `end`."""

    tree: Any
    begin: int
    end: int
    parts: list[Any] = field(default_factory=list)


def paired(tree: Any, piece: Piece) -> Node:
    """The node of a tree with the place of its piece, and its parts likewise."""
    inner = parts(tree)
    if len(inner) != len(piece.parts):
        raise NotRead
    return Node(tree, piece.begin, piece.end, [paired(*both) for both in zip(inner, piece.parts)])


def read(text: str) -> Node:
    """The tree of an expression with the places of its nodes."""
    try:
        return paired(macros.expand(grammar.read(text)), cut(text))
    except (Refused, NotCut) as why:
        raise NotRead from why


def is_same(first: str, second: str) -> bool:
    """Whether two texts have the same tree in the profile."""
    try:
        return first == second or grammar.read(first) == grammar.read(second)
    except Refused:
        return False
