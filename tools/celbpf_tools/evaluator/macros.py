"""Expansion: macros, `has` and the use of variables become nodes of their own."""

from dataclasses import replace
from typing import Any

from .refused import Refused
from .trees import Call, Has, ListLiteral, Macro, MapLiteral, Method, Name, Operation, Selection, Ternary, Variable

ROOTS = ["object", "oldObject", "params", "namespaceObject", "request"]
VARIABLES = "variables"
# how many arguments each takes
COUNTS = {"all": (2,), "exists": (2,), "exists_one": (2,), "filter": (2,), "map": (2, 3)}


def has_of(call: Call) -> Has:
    """The node of a call of `has`."""
    if len(call.arguments) != 1:
        raise Refused("M1")
    selection = call.arguments[0]
    if not isinstance(selection, Selection):
        raise Refused("M3")
    return Has(expand(selection.operand), selection.field)


def macro_of(method: Method) -> Macro:
    """The node of a macro."""
    word, arguments = method.method, method.arguments
    if len(arguments) not in COUNTS[word]:
        raise Refused("M1")
    name = arguments[0]
    if not isinstance(name, Name) or name.name in ROOTS or name.name == VARIABLES:
        raise Refused("M2")
    target = expand(method.target)
    others = [expand(argument) for argument in arguments[1:]]
    if word != "map":
        return Macro(word, target, name.name, others[0], None)
    predicate = others[0] if len(others) == 2 else None
    return Macro(word, target, name.name, predicate, others[-1])


def expand_all(trees: tuple[Any, ...]) -> tuple[Any, ...]:
    return tuple(expand(tree) for tree in trees)


def expand(tree: Any) -> Any:
    """The expanded tree, or the first of M1 to M3: a node before its parts, these from the left."""
    if isinstance(tree, Call):
        return has_of(tree) if tree.function == "has" else replace(tree, arguments=expand_all(tree.arguments))
    if isinstance(tree, Method):
        if tree.method in COUNTS:
            return macro_of(tree)
        return replace(tree, target=expand(tree.target), arguments=expand_all(tree.arguments))
    if isinstance(tree, Selection):
        if tree.operand == Name(VARIABLES):
            return Variable(tree.field)
        return replace(tree, operand=expand(tree.operand))
    if isinstance(tree, Operation):
        return replace(tree, operands=expand_all(tree.operands))
    if isinstance(tree, Ternary):
        return Ternary(*expand_all((tree.condition, tree.chosen, tree.other)))
    if isinstance(tree, ListLiteral):
        return ListLiteral(expand_all(tree.items))
    if isinstance(tree, MapLiteral):
        return MapLiteral(tuple(expand_all(entry) for entry in tree.entries))
    return tree
