"""An expression of a policy: its tree and kind, or the first refusal."""

from dataclasses import dataclass, field
from typing import Any

from . import grammar, kinds, reach
from .refused import refuse
from .signatures import PLAIN

# the kinds of the whole of a condition or validation, of a message, and of an annotation
WHOLES = {"condition": ("Bool", "Dyn"), "message": ("String", "Dyn"), "annotation": ("String", "Null")}


@dataclass
class Scope:
    """The variables so far: their kinds, whether their values are known from the documents, and whether they are lists.

    `knows_plain` is that of `Kinds`.
    """

    kinds: dict[str, Any] = field(default_factory=dict)
    known: dict[str, Any] = field(default_factory=dict)
    lists: dict[str, bool] = field(default_factory=dict)
    knows_plain: bool = True


def taken(text: str, scope: Scope, part: str = "value") -> Any:
    """The tree of an expression; `part` is one of WHOLES, or `value` for any plain kind.

    A condition of another plain kind is K7, a message or annotation K9.
    """
    tree = grammar.read(text)
    given = kinds.kind_of(tree, scope.kinds, scope.knows_plain)
    if given not in PLAIN:
        refuse("W4", tree.place)
    if given not in WHOLES.get(part, PLAIN):
        refuse("K7" if part == "condition" else "K9", tree.place)
    reach.check(tree, scope.known, scope.lists)
    return tree


def variable(name: str, expression: str, scope: Scope) -> Any:
    """The tree of a variable, which the scope has from then on; it may be an optional or typed."""
    tree = grammar.read(expression)
    given = kinds.kind_of(tree, scope.kinds, scope.knows_plain)
    if given == "Type":
        refuse("W4", tree.place)
    scope.known[name], scope.lists[name] = reach.check(tree, scope.known, scope.lists)
    scope.kinds[name] = given
    return tree
