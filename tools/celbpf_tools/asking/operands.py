"""What is wrong with the operands of a piece that is refused for their types (Y2), as the program answers for each."""

from typing import Any

from .places import Refusals
from .splitter import Piece

# how a value of a type is called, and an expression that takes an operand of this type, or of none that is known
TYPES = {
    "a bool": "(%s) || true", "an int": "((%s) + 1) == 0", "a text": "((%s) + '') == ''", "a list": "((%s) + []) == []",
    "a map": "(%s).a",
}
INTS, BOOLS, TEXTS, COMPARED = "ints", "bools", "texts", "two ints, two texts or two bools"
# what forms of pieces, functions and macros take
TAKES = {
    "||": BOOLS, "&&": BOOLS, "not": BOOLS, "-": INTS, "*": INTS, "/": INTS, "%": INTS, "minus": INTS,
    "+": "two ints, two texts or two lists", "==": "two values of one type", "!=": "two values of one type",
    "<": COMPARED, "<=": COMPARED, ">": COMPARED, ">=": COMPARED, "in": "a list on its right, or a text and a map",
    "index": "a map and a text, or a list and an int", "field": "a map", "has": "a field of a map", "map": "keys that are texts",
    "size": "a text, a list or a map", "startsWith": TEXTS, "endsWith": TEXTS, "contains": TEXTS,
    "all": "a list or a map, and a bool for each item", "exists": "a list or a map, and a bool for each item",
    "exists_one": "a list or a map, and a bool for each item", "filter": "a list or a map, and a bool for each item",
    "ternary": "a bool before `?`, and two values of one type after it",
}
# what all operands of a piece are that takes this
ALONE = {INTS: "an int", BOOLS: "a bool", TEXTS: "a text"}
SHOWN = {"not": "`!`", "minus": "`-`", "index": "an index, `[..]`,", "map": "a map", "ternary": "`? :`"}
# the most characters of an operand that are shown
MOST = 40


def name_of(piece: Piece) -> str:
    """The word for what a piece does."""
    if piece.kind == "ternary":
        return "ternary"
    if piece.kind == "macro":
        return piece.word
    return piece.name if piece.form in ("method", "call") else piece.form


def shown(piece: Piece, name: str) -> str:
    """How what a piece does is shown."""
    return f"`.{piece.name}`" if name == "field" else SHOWN.get(name, f"`{name}`")


def type_of(refusals: Refusals, text: str, frames: list[Any]) -> str:
    """The type of an operand, empty if it is not known before the run."""
    if text.strip() == "null":
        return "null"
    taken = [name for name, form in TYPES.items() if not refusals.refuses_text(form % text, frames)]
    return taken[0] if len(taken) == 1 else ""


def told(refusals: Refusals, text: str, piece: Piece, frames: list[Any]) -> str:
    """What a piece of a text takes, and which types its operands are known to have; empty if it is not known."""
    name = name_of(piece)
    takes = TAKES.get(name, "")
    parts = list(refusals.parts(piece, frames)) if takes else []
    found = []
    # of a map the keys alone
    for part, inner in parts[::2] if name == "map" else parts:
        operand = text[part.begin : part.end]
        kind = type_of(refusals, operand, inner)
        if kind and kind != ALONE.get(takes):
            cut = operand if len(operand) <= MOST else f"{operand[:MOST]}.."
            found.append(f"`{' '.join(cut.split())}` is {kind}")
    return f"{shown(piece, name)} takes {takes}; {', '.join(found)}" if found else ""
