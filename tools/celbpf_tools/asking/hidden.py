"""Refusals behind one for a table of indices.

A policy that needs such a table is refused as it would be without one, by W5 without a name for the first part that needs
it, whatever else is wrong. So it is asked too with other macros, in which no index or key is used, and with forms of the same
kind for methods that look at the places of a list: a refusal of these is its own. If there is none, its table may be too
short for a part, which is refused alone.
"""

from typing import Any

from . import policies
from .splitter import NotCut, Piece
from .wide_splitter import cut

# how the refusal of a form ends
FORM = " W5"
# the macro of two names that makes a list
LIST = "transformList"
# the methods that look at places: how many operands they have, and a form of these
METHODS = {
    "isSorted": (1, "(dyn({0} + []) == null)"),
    "distinct": (1, "({0} + [])"),
    "reverse": (1, "({0} + [])"),
    "slice": (3, "(dyn({1}) == dyn({2}) ? {0} + [] : [])"),
}
# those that are refused with their names, unless the receiver is known to be a list
OF_LISTS = {name: (2, "(dyn({1}) == dyn({0}) ? 0 : 1)") for name in ("indexOf", "lastIndexOf")}


def refusal(program: Any, policy: dict[str, Any]) -> str:
    """What a program says to a policy, or behind that; empty if it is accepted."""
    said = program.refusal(policy)
    if not said.endswith(FORM):
        return said
    behind = program.refusal(without_keys(policy, METHODS))
    if behind.endswith(FORM):
        behind = program.refusal(without_keys(policy, {**METHODS, **OF_LISTS}))
    return behind or said


def of_policy(program: Any, policy: dict[str, Any]) -> str:
    """What a program says to a whole policy, or behind that, with the part that is refused."""
    said = refusal(program, policy)
    return (said.endswith(FORM) and of_parts(program, policy)) or said


def of_parts(program: Any, policy: dict[str, Any]) -> str:
    """The refusal of the first part that is refused as a form alone; empty if none is."""
    for part in policies.parts(policy):
        if refusal(program, policies.as_variable(part.scope, part.text)).endswith(FORM):
            return f"K6 {part.kind} {part.place}{FORM}"
    return ""


def without_keys(value: Any, methods: dict[str, tuple[int, str]]) -> Any:
    """A document in which no macro of an expression uses an index or a key, and none of these methods is called."""
    if isinstance(value, dict):
        return {
            key: text_without_keys(one, methods) if is_text(key, one) else without_keys(one, methods)
            for key, one in value.items()
        }
    return [without_keys(one, methods) for one in value] if isinstance(value, list) else value


def is_text(key: str, value: Any) -> bool:
    """Whether a key has the text of an expression."""
    return key.endswith("xpression") and isinstance(value, str)


def text_without_keys(text: str, methods: dict[str, tuple[int, str]]) -> str:
    """An expression in which the first name of a macro with two is one over null, and these methods are other forms."""
    try:
        whole = cut(text)
    except NotCut:
        return text
    return text[: whole.begin] + changed(text, whole, methods) + text[whole.end :]


def changed(text: str, piece: Piece, methods: dict[str, tuple[int, str]]) -> str:
    """The text of a piece, with its macros and these methods changed."""
    parts = [changed(text, part, methods) for part in piece.parts]
    names = piece.name.split() if piece.kind == "macro" else []
    if len(names) == 2:
        return macro(piece.word, names, parts)
    count, form = methods.get(piece.name, (0, "")) if piece.form == "method" else (0, "")
    if form and count == len(parts):
        return form.format(*(f"(\n{part}\n)" for part in parts))
    made, at = "", piece.begin
    for part, new in zip(piece.parts, parts):
        made, at = made + text[at : part.begin] + new, part.end
    return made + text[at : piece.end]


def macro(word: str, names: list[str], parts: list[str]) -> str:
    """A macro of two names over the range and with the texts after it, of which the first name is not used."""
    key, value = names
    unused = f"{key}1" if value == f"{key}0" else f"{key}0"
    bodies = [f"[dyn(null)].all({key},\n{part}\n)" for part in parts[1:]]
    if word == LIST:
        bodies[-1] = f"[dyn(null)].map({key},\n{parts[-1]}\n)[0]"
    return f"(\n{parts[0]}\n).{word}({unused}, {value}, {', '.join(bodies)})"
