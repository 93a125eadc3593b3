"""Expansion: macros and `has` become nodes of their own."""

from dataclasses import replace
from typing import Any, Optional

from .refused import refuse
from .trees import Call, Field, Has, Index, ListLiteral, Macro, MapLiteral, Method, Name, Operation, Ternary

# the number of names and of arguments of each form of a macro
FORMS = {
    ("all", 2): 1, ("exists", 2): 1, ("exists_one", 2): 1, ("filter", 2): 1, ("map", 2): 1, ("map", 3): 1,
    ("optMap", 2): 1, ("optFlatMap", 2): 1,
    ("all", 3): 2, ("exists", 3): 2, ("exists_one", 3): 2, ("existsOne", 3): 2,
    ("transformList", 3): 2, ("transformList", 4): 2,
    ("transformMap", 3): 2, ("transformMap", 4): 2, ("transformMapEntry", 3): 2, ("transformMapEntry", 4): 2,
}
MAKES_MAPS = ("transformMap", "transformMapEntry")
TRANSFORMS = ("map", "optMap", "optFlatMap", "transformList")


def has_of(call: Call) -> Has:
    """The node of a call of `has`."""
    if len(call.arguments) != 1:
        refuse("M1", call.place)
    field = call.arguments[0]
    if not isinstance(field, Field) or field.optional:
        refuse("M3", field.place)
    return Has(call.place, expand(field.operand), field.name)


def names_of(arguments: tuple[Any, ...]) -> tuple[Any, ...]:
    """The iteration names that these arguments declare."""
    names: list[str] = []
    for argument in arguments:
        if not isinstance(argument, Name) or argument.dotted or argument.name in names:
            refuse("M2", argument.place)
        names.append(argument.name)
    return tuple(names)


def macro_of(method: Method, count: int) -> Macro:
    """The node of a macro with this number of names."""
    names = names_of(method.arguments[:count])
    if method.method in MAKES_MAPS:
        refuse("W3", method.named)
    target, *others = expand_all((method.target, *method.arguments[count:]))
    predicate: Optional[Any] = others[0]
    transform: Optional[Any] = None
    if method.method in TRANSFORMS:
        predicate, transform = others[0] if len(others) == 2 else None, others[-1]
    return Macro(method.place, method.method, target, names, predicate, transform, method.named)


def expand_all(trees: tuple[Any, ...]) -> tuple[Any, ...]:
    return tuple(expand(tree) for tree in trees)


def expand(tree: Any) -> Any:
    """The expanded tree, or the first of M1 to M3 and W3: a node before its parts, these from the left."""
    if isinstance(tree, Call):
        if tree.function == "has" and not tree.dotted:
            return has_of(tree)
        return replace(tree, arguments=expand_all(tree.arguments))
    if isinstance(tree, Method):
        count = FORMS.get((tree.method, len(tree.arguments)))
        if count is not None:
            return macro_of(tree, count)
        return replace(tree, target=expand(tree.target), arguments=expand_all(tree.arguments))
    if isinstance(tree, Field):
        return replace(tree, operand=expand(tree.operand))
    if isinstance(tree, Index):
        return replace(tree, operand=expand(tree.operand), key=expand(tree.key))
    if isinstance(tree, Operation):
        return replace(tree, operands=expand_all(tree.operands))
    if isinstance(tree, Ternary):
        return Ternary(tree.place, *expand_all((tree.condition, tree.chosen, tree.other)))
    if isinstance(tree, ListLiteral):
        return replace(tree, items=tuple((optional, expand(item)) for optional, item in tree.items))
    if isinstance(tree, MapLiteral):
        return replace(tree, entries=tuple((one[0], *expand_all(one[1:])) for one in tree.entries))
    return tree
