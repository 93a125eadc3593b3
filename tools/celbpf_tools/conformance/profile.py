"""Which cases are in the profile of docs/CEL.md, each other one with its reason.

A reason is a form that is written in the case and that the page leaves out; nothing is out because it is refused. What
an expression calls and names is looked up in the evaluator's tree of it. A text that has no such tree stays in the
profile: if the program refuses it too, it fails there.
"""

from typing import Any, Iterator, Optional

from ..evaluator.grammar import is_identifier, read
from ..evaluator.macros import expand
from ..evaluator.refused import Refused
from ..evaluator.trees import Call, Literal, MapLiteral, Method, Name, Operation, parts
from ..evaluator.types import check
from . import lexis
from .cases import Case
from .values import OutOfProfile, json_of

FUNCTIONS = ("size", "string", "dyn", "has")
METHODS = ("size", "startsWith", "endsWith", "contains")
MACROS = ("all", "exists", "exists_one", "filter", "map")
# macros that a predicate ends, which with one argument more have two names
OF_TWO_NAMES = ("all", "exists", "exists_one")
FLAGS = {
    "container": "names of a container", "disable_macros": "macros that are disabled", "check_only": "type alone",
}
# without a type an expression is refused: docs/CEL.md has no way to leave the check of types out
IS_UNTYPED = "ill-typed, with the check of types disabled"
TYPES = ("bool", "bytes", "double", "int", "list", "map", "null_type", "string", "type", "uint")


def is_macro(tree: Any) -> bool:
    """Whether a method is a macro with its iteration name."""
    return isinstance(tree, Method) and tree.method in MACROS and isinstance(tree.arguments[0], Name)


def of_call(tree: Any) -> Optional[str]:
    """Why a call is not in the profile."""
    if isinstance(tree, Call) and tree.function not in FUNCTIONS:
        return f"function {tree.function}"
    if isinstance(tree, Method) and tree.method not in (*METHODS, *MACROS):
        return f"function {tree.method}"
    if isinstance(tree, Method) and tree.method in OF_TWO_NAMES and len(tree.arguments) == 3:
        return "macro of two names"
    if isinstance(tree, Call) and tree.function == "string" and isinstance(tree.arguments[0], Literal):
        if isinstance(tree.arguments[0].value, bool) or tree.arguments[0].value is None:
            return "conversion of a bool or null"
    return None


def of_name(tree: Name, names: frozenset[Any]) -> Optional[str]:
    """Why a name is not in the profile."""
    if tree.name in names:
        return None
    return "type value" if tree.name in TYPES else "name that is not bound"


def keys_in(tree: Any) -> list[Any]:
    """The keys that a node writes: those of a map literal, and what `in` looks for in one."""
    if isinstance(tree, MapLiteral):
        return [key for key, _ in tree.entries]
    if isinstance(tree, Operation) and tree.sign == "in" and isinstance(tree.operands[1], MapLiteral):
        return [tree.operands[0]]
    return []


def of_tree(tree: Any, names: frozenset[Any]) -> Iterator[str]:
    """Why a tree is not in the profile, a node before its parts; `names` are those that have a value."""
    if isinstance(tree, Name):
        why = of_name(tree, names)
    elif any(isinstance(key, Literal) and not isinstance(key.value, str) for key in keys_in(tree)):
        why = "map key that is not a text"
    else:
        why = of_call(tree)
    if why:
        yield why
    inner = parts(tree)
    if is_macro(tree):
        target, declared, *inner = inner
        yield from of_tree(target, names)
        names = names | {declared.name}
    for part in inner:
        yield from of_tree(part, names)


def of_expression(text: str, names: frozenset[Any]) -> Optional[str]:
    """The first reason why an expression is not in the profile."""
    why = lexis.reason(text)
    if why:
        return why
    try:
        tree = read(text)
    except Refused:
        return None
    return next(of_tree(tree, names), None)


def bound(case: Case) -> dict[str, Any]:
    """The values of the names of a case, as JSON; a literal's word, as `true`, is no name and stays a literal."""
    found = {}
    for name, given in case.bindings.items():
        if "." in name:
            raise OutOfProfile("qualified name")
        if not is_identifier(name):
            continue
        kind, value = given.only()
        if kind != "value":
            raise OutOfProfile(f"binding: {kind}")
        found[name] = json_of(value)
    return found


def wanted(case: Case) -> Any:
    """The value that a case wants, as JSON."""
    return True if case.value is None else json_of(case.value)


def reason(case: Case) -> Optional[str]:
    """Why a case is not in the profile; `None` if it is."""
    why = of_expression(case.expression, frozenset(case.bindings))
    if why:
        return why
    for flag, told in FLAGS.items():
        if case.message.one(flag, "false") not in ("false", ""):
            return told
    try:
        bound(case)
        if case.wants_unknown:
            return "unknown value"
        if not case.wants_error:
            wanted(case)
    except OutOfProfile as other:
        return str(other)
    return IS_UNTYPED if case.is_set("disable_check") and not has_type(case) else None


def has_type(case: Case) -> bool:
    """Whether the evaluator finds a type for an expression; also if it is refused before it is typed."""
    try:
        check(expand(read(case.expression)), {}, frozenset(case.bindings))
    except Refused as why:
        return why.text != "Y2"
    return True
