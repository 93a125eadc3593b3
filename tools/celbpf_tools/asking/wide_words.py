"""What the refusals of the language of clusters mean, and what to write instead."""

import re

from . import syntax_words
from .refused import MEANINGS
from .wide_functions import LATER, NOT_THERE, meant, similar
from .wide_places import OF_OPTIONALS, Found
from .wide_splitter import NAMESPACES, namespace_of

# the names that an expression begins with
NAMES = ("object", "oldObject", "params", "namespaceObject", "request", "variables")
# names of types, which are no values here
TYPES = ("int", "uint", "double", "string", "bool", "bytes", "null_type", "list", "map", "type")
INDEX_HINT = "a macro over each list of the sum, or one with a single name"
# a name after a dot, and a minus
DASHED = re.compile(r"\.([A-Za-z_]\w*(?:-[A-Za-z_]\w*)*)-$")
AS_VALUE = "`.orValue(..)` for its value, or `.hasValue()`"


def told(found: Found, text: str) -> tuple[str, str]:
    """What a refusal means, and what to write instead or no text."""
    if found.cause in OF_CAUSES:
        return OF_CAUSES[found.cause](found, text)
    return found.operands or MEANINGS.get(found.cause, "it is refused"), ""


def bytes_told(found: Found, text: str) -> tuple[str, str]:
    given = text[found.begin : found.end]
    return f"bytes, such as {given}, are not supported", f"`{given.lstrip('bB')}`"


def number_told(found: Found, text: str) -> tuple[str, str]:
    """A double, or an unsigned int."""
    number = text[found.begin : found.end]
    if number[-1:] in ("u", "U"):
        return f"an unsigned int, {number}, is taken beside == != < <= > >= alone", f"`{number[:-1]}`"
    return f"numbers with a fraction, such as {number}, are not supported", "an int"


def map_told(found: Found, _: str) -> tuple[str, str]:
    return "`transformMap` and `transformMapEntry` are not supported", "a list by `map`, or `all` and `exists`"


def optional_told(found: Found, _: str) -> tuple[str, str]:
    """An optional value in a wrong place, or none where one is needed."""
    piece = found.piece
    if piece is None:
        return "its result is an optional value", AS_VALUE
    if piece.form == "index":
        return "what is between `[` and `]` is an optional value", AS_VALUE
    if piece.form == "method" and piece.name in ("or", "orValue"):
        wanted = "an optional value" if piece.name == "or" else "a value, and no optional one,"
        return f"`{piece.name}` needs {wanted} between its brackets", "`or` with an optional value, `orValue` with another"
    if piece.kind == "macro" and piece.word in OF_OPTIONALS:
        hint = "`optMap` to make a value, `optFlatMap` to make an optional one"
        return f"`{piece.word}` is for an optional value, and what it makes has to fit", hint
    return "an optional value stands where a value is needed", AS_VALUE


def name_told(found: Found, text: str) -> tuple[str, str]:
    """A name or a form that is not known."""
    piece, name = found.piece, found.name
    if piece is None:
        return f"`{name}` is not known here" if name else MEANINGS["W5"], ""
    if not name:
        return form_told(found)
    if piece.kind == "macro" and name != piece.word:
        return f"`{name}` is not taken as the name of an item", "another name"
    if piece.kind == "leaf":
        dashed = DASHED.search(text[: found.begin])
        if dashed:
            return f"`-` is no part of a name after a dot: `{name}` is read as a name", f"`['{dashed[1]}-{name}']` without the dot"
        return leaf_told(name, found.text)
    space = namespace_of(piece)
    if space == "authorizer":
        return "the decisions of the authorizer are not known here", ""
    return function_told(f"{space}.{name}" if space else name)


def function_told(name: str) -> tuple[str, str]:
    """A function that is not supported, or that is none."""
    if name in NOT_THERE:
        return f"no API server up to 1.36 has `{name}`", NOT_THERE[name]
    if name in OF_OPTIONALS:
        return f"`{name}` follows an optional value alone", "`.?` before the field that it follows"
    if name in LATER:
        return f"`{name}` is not supported yet", LATER[name]
    return f"there is no function `{name}` with these arguments", f"`{meant(name)}`" if meant(name) not in ("", name) else ""


def leaf_told(name: str, text: str) -> tuple[str, str]:
    """A name that is none, or a variable."""
    if name == "authorizer":
        return "the decisions of the authorizer are not known here", ""
    if text.lstrip(".").startswith("variables"):
        return f"no variable `{name}` is known here", "a variable that comes before; a match condition has none"
    if name in TYPES:
        return f"a type, such as `{name}`, is no value here", ""
    if name in NAMESPACES:
        return f"`{name}` is followed by a function", ""
    near = similar(name, NAMES)
    known = "object, oldObject, params, namespaceObject, request, or `variables.` and a name"
    return f"`{name}` is no name here", f"`{near}`" if near else known


def form_told(found: Found) -> tuple[str, str]:
    """A form that is not supported."""
    piece = found.piece
    assert piece is not None
    if piece.kind == "macro":
        return "a macro uses the index or key of what may be longer than the documents' lists and maps, as a sum may", INDEX_HINT
    if piece.form == "method":
        told = f"`{piece.name}` looks at the places of what may be longer than the documents' lists and maps, as a sum may"
        return told, "the method of each part, if that says the same"
    return MEANINGS["W5"], ""


def syntax_told(found: Found, text: str) -> tuple[str, str]:
    """A character or a token that does not fit."""
    return syntax_words.told(found.cause, text, found.begin)


def entry_told(found: Found, _: str) -> tuple[str, str]:
    """Optional entries of a map."""
    return "of a map at most three entries have a question mark, with keys that are texts, written out", "`has(e.f) ? {..} : {..}`"


def field_told(_: Found, __: str) -> tuple[str, str]:
    """`has` of what is no field."""
    return MEANINGS["M3"], "`has(e.f)`, or `k in e` for a key"


def depth_told(_: Found, __: str) -> tuple[str, str]:
    """Too many selections, indexes, calls or operators in a row."""
    return MEANINGS["W10"], "variables for parts of it"


OF_CAUSES = {
    "P1": syntax_told, "P4": syntax_told, "M3": field_told,
    "W1": bytes_told, "W2": number_told, "W3": map_told, "W4": optional_told, "W5": name_told, "W6": entry_told, "W10": depth_told,
}
