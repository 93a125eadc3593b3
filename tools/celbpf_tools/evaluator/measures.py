"""How large an expanded expression is."""

from typing import Any

from .trees import Has, ListLiteral, Literal, Macro, MapLiteral, Selection, Ternary, Variable, parts
from .values import kind, length

MOST_NEED = 60
MOST_DEPTH = 6
SLOTS_A_NODE = 128
MOST_SLOTS = 65_536
MOST_CONSTANTS = 1_048_576


def nodes(tree: Any) -> int:
    """One for each node."""
    return 1 + sum(nodes(part) for part in parts(tree))


def need(tree: Any) -> int:
    """The words of the stack that its code is given."""
    needs = [need(part) for part in parts(tree)]
    if not needs:
        return 1
    if isinstance(tree, Ternary):
        return max(needs)
    if isinstance(tree, ListLiteral):
        return 1 + max(needs)
    if isinstance(tree, MapLiteral):
        return max(1 + place % 2 + one for place, one in enumerate(needs))
    if isinstance(tree, Macro):
        return max(needs[0], 5 + max(needs[1:]))
    return max([needs[0], *(1 + one for one in needs[1:])])


def depth(tree: Any, depths: dict[str, Any]) -> int:
    """How deep a variable of this expression stands, over those that it names."""
    return 1 + deepest(tree, depths)


def deepest(tree: Any, depths: dict[str, Any]) -> int:
    if isinstance(tree, Variable):
        return depths[tree.name]
    return max((deepest(part, depths) for part in parts(tree)), default=0)


def constants(tree: Any) -> set[Any]:
    """The texts that its code has to hold: field names and text literals."""
    found: set[Any] = set()
    if isinstance(tree, (Selection, Has)):
        found.add(tree.field)
    if isinstance(tree, Literal) and kind(tree.value) == "text":
        found.add(tree.value)
    return found.union(*(constants(part) for part in parts(tree)))


def bytes_of(texts: set[Any]) -> int:
    """The bytes of texts together."""
    return sum(length(text) for text in texts)
