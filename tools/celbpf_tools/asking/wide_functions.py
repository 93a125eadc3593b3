"""Functions and methods that policies as clusters store them may not have, and what to write instead."""

import difflib
from collections.abc import Iterable

# functions and methods of API servers that are not supported, and what to write instead, if it is known
LATER = {
    "matches": "startsWith, endsWith or contains for a fixed text, `e in ['a', 'b']` for a choice",
    "split": "`(',' + e + ',').contains(',' + x + ',')` for `x in e.split(',')`, `e == 'a' || e.startsWith('a/')` for a first part",
    "join": "an item, such as `l[0]`",
    "format": "`+`, with `string(e)` for an int or a bool",
    "substring": "startsWith or endsWith",
    "indexOf": "contains for a text, `l.map(x, x).indexOf(e)` for a list",
    "lastIndexOf": "contains or endsWith for a text, `l.map(x, x).lastIndexOf(e)` for a list",
    "replace": "", "trim": "", "charAt": "", "find": "", "findAll": "",
    "lowerAscii": "each spelling: `e in ['a', 'A']`",
    "upperAscii": "each spelling: `e in ['a', 'A']`",
    "sum": "", "flatten": "", "sort": "",
    "type": "",
    "int": "an int in the document, or a comparison of texts such as `e == '3'`", "double": "an int", "uint": "an int", "bytes": "a text",
    "quantity": "if few are allowed, a choice of texts, such as `e in ['500m', '1']`; nothing compares quantities",
    "isQuantity": "", "duration": "a choice of texts", "timestamp": "", "semver": "startsWith for a major version",
    "isSemver": "", "ip": "", "isIP": "", "cidr": "", "isCIDR": "", "url": "startsWith", "isURL": "startsWith",
    "strings.quote": "", "lists.range": "the list itself, as `[0, 1, 2]`",
}
# what API servers up to 1.36 do not have
NOT_THERE = {
    "cel.bind": "a variable of the policy",
    "math.greatest": "`a > b ? a : b`", "math.least": "`a < b ? a : b`", "math.abs": "`a < 0 ? -a : a`",
    "existsOne": "`exists_one`",
}
# the macros and functions that there are
MACROS = ("all", "exists", "exists_one", "filter", "map", "transformList")
TAKEN = (*MACROS, "size", "startsWith", "endsWith", "contains", "string", "bool", "dyn", "first", "last", "min", "max",
         "isSorted", "distinct", "reverse", "slice", "hasValue", "value", "orValue", "optMap", "optFlatMap")
# what other languages call them
ELSEWHERE = {
    "length": "size", "len": "size", "count": "size", "any": "exists", "some": "exists", "every": "all", "includes": "contains",
    "hasPrefix": "startsWith", "hasSuffix": "endsWith", "select": "filter",
}
# how alike words are of which one may be meant by the other
ALIKE = 0.75


def similar(word: str, known: Iterable[str]) -> str:
    """The word that may be meant by one that is not known: one that begins so, or one that is alike; empty if there is none."""
    names = list(known)
    begun = [one for one in names if len(word) > 2 and one.startswith(word)]
    return next(iter(begun or difflib.get_close_matches(word, names, 1, ALIKE)), "")


def meant(name: str) -> str:
    """The function or macro that may be meant by a name that is none; empty if that is not known."""
    return ELSEWHERE.get(name) or similar(name, TAKEN)
