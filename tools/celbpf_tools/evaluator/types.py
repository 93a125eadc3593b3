"""The type of an expanded expression, or why it has none.

The types are the words `Bool Int String Null List Map Dyn`. A scope is a dict from the names of the
variables that may be used to their types.
"""

from typing import Any, NoReturn

from .macros import ROOTS, VARIABLES
from .refused import Refused
from .trees import Call, Has, ListLiteral, Literal, Macro, MapLiteral, Method, Name, Selection, Ternary, Variable, parts
from .values import kind

LITERALS = {"null": "Null", "bool": "Bool", "int": "Int", "text": "String"}
ORDERED = ("Int", "String", "Bool")
SIZED = ("String", "List", "Map")


def no_type() -> NoReturn:
    raise Refused("Y2")


def is_one_of(given: str, *types: str) -> bool:
    """Whether a type may be one of these."""
    return given == "Dyn" or given in types


def want(condition: bool, given: str) -> str:
    """The type where its row holds."""
    return given if condition else no_type()


def common(types: tuple[Any, ...], given: list[Any]) -> str:
    """The type that several share, one that is Dyn aside; it has to be one of these."""
    known = {one for one in given if one != "Dyn"}
    if len(known) > 1 or not known <= set(types):
        no_type()
    return known.pop() if known else "Dyn"


def of_index(operand: str, key: str) -> str:
    fits = {"List": ("Int",), "Map": ("String",), "Dyn": ("Int", "String")}
    return want(operand in fits and is_one_of(key, *fits[operand]), "Dyn")


def of_membership(item: str, container: str) -> str:
    return want(is_one_of(container, "List") or container == "Map" and is_one_of(item, "String"), "Bool")


def of_operation(sign: str, given: list[Any]) -> str:
    """The type of an operator on operands of these types."""
    if sign == "[]":
        return of_index(*given)
    if sign == "in":
        return of_membership(*given)
    if sign in ("!", "&&", "||"):
        return want(all(is_one_of(one, "Bool") for one in given), "Bool")
    if sign in ("==", "!="):
        return want(given[0] == given[1] or "Dyn" in given, "Bool")
    if sign in ("<", "<=", ">", ">="):
        common(ORDERED, given)
        return "Bool"
    if sign == "+":
        return common(("Int", "String", "List"), given)
    return want(all(is_one_of(one, "Int") for one in given), "Int")


def of_call(function: str, given: list[Any]) -> str:
    """The type of a call of a function on arguments of these types."""
    if len(given) != 1 or function not in ("size", "string", "dyn"):
        no_type()
    if function == "dyn":
        return "Dyn"
    if function == "size":
        return want(is_one_of(given[0], *SIZED), "Int")
    return want(is_one_of(given[0], "Int", "String"), "String")


def of_method(method: str, given: list[Any]) -> str:
    """The type of a call of a method on a target and arguments of these types."""
    if method == "size" and len(given) == 1:
        return want(is_one_of(given[0], *SIZED), "Int")
    if method in ("startsWith", "endsWith", "contains") and len(given) == 2:
        return want(all(is_one_of(one, "String") for one in given), "Bool")
    return no_type()


def of_ternary(condition: str, chosen: str, other: str) -> str:
    if not is_one_of(condition, "Bool"):
        no_type()
    if chosen == other:
        return chosen
    return want("Dyn" in (chosen, other), "Dyn")


def of_macro(macro: Macro, given: list[Any]) -> str:
    """The type of a macro whose range and predicate, where there is one, begin these types."""
    fits = is_one_of(given[0], "List", "Map")
    if macro.predicate is not None:
        fits = fits and is_one_of(given[1], "Bool")
    return want(fits, "List" if macro.word in ("map", "filter") else "Bool")


def of_leaf(tree: Any, scope: dict[str, Any], names: frozenset[Any]) -> str:
    """The type of a node without parts."""
    if isinstance(tree, Literal):
        return LITERALS[kind(tree.value)]
    if isinstance(tree, Variable):
        return scope[tree.name] if tree.name in scope else refuse_variable()
    if tree.name == VARIABLES:
        refuse_variable()
    if tree.name not in ROOTS and tree.name not in names:
        raise Refused("Y1")
    return "Dyn"


def refuse_variable() -> NoReturn:
    raise Refused("Y3")


def of_parts(tree: Any, scope: dict[str, Any], names: frozenset[Any]) -> list[Any]:
    """The types of the parts of a node, from the left."""
    found = []
    for place, part in enumerate(parts(tree)):
        inner = names | {tree.name} if isinstance(tree, Macro) and place else names
        found.append(check(part, scope, inner))
    return found


def check(tree: Any, scope: dict[str, Any], names: frozenset[Any] = frozenset()) -> str:
    """The type of a tree in a scope, or the first of Y1 to Y3: parts before their node, from the left."""
    if isinstance(tree, (Literal, Name, Variable)):
        return of_leaf(tree, scope, names)
    given = of_parts(tree, scope, names)
    if isinstance(tree, Selection):
        return want(is_one_of(given[0], "Map"), "Dyn")
    if isinstance(tree, Has):
        return want(is_one_of(given[0], "Map"), "Bool")
    if isinstance(tree, Call):
        return of_call(tree.function, given)
    if isinstance(tree, Method):
        return of_method(tree.method, given)
    if isinstance(tree, Ternary):
        return of_ternary(*given)
    if isinstance(tree, ListLiteral):
        return "List"
    if isinstance(tree, MapLiteral):
        return want(all(is_one_of(key, "String") for key in given[::2]), "Map")
    if isinstance(tree, Macro):
        return of_macro(tree, given)
    return of_operation(tree.sign, given)
