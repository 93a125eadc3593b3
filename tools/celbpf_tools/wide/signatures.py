"""The functions and methods of the wide language: the kinds that they take, and the kind of their result.

A signature is (receiver's kinds, kinds of each argument, number of arguments at least, result). `ANY` takes
each plain kind; a result may be an optional.
"""

from dataclasses import dataclass
from typing import Any

PLAIN = ("Null", "Bool", "Int", "String", "List", "Map", "Dyn")
ORDERED = ("Quantity", "Duration", "Timestamp", "Semver")
ADDRESSES = ("IP", "CIDR")
TYPED = ORDERED + ADDRESSES
ANY = PLAIN


@dataclass(frozen=True)
class Opt:
    """The kind of an optional."""

    inner: str


OPTIONAL_DYN = Opt("Dyn")
TEXT, INT, LIST, SIZED = ("String",), ("Int",), ("List",), ("String", "List", "Map")

# name: (kinds of the arguments, number at least, result)
FUNCTIONS: dict[str, tuple[tuple[Any, ...], int, Any]] = {
    "size": ((SIZED,), 1, "Int"),
    "string": ((("String", "Int", "Bool"),), 1, "String"),
    "dyn": ((ANY,), 1, "Dyn"),
    "type": ((ANY,), 1, "Type"),
    "int": ((("String", "Int"),), 1, "Int"),
    "bool": ((("String", "Bool"),), 1, "Bool"),
    "isQuantity": ((TEXT,), 1, "Bool"),
    "quantity": ((TEXT,), 1, "Quantity"),
    "duration": ((TEXT,), 1, "Duration"),
    "timestamp": ((TEXT,), 1, "Timestamp"),
    "isSemver": ((TEXT, ("Bool",)), 1, "Bool"),
    "semver": ((TEXT, ("Bool",)), 1, "Semver"),
    "isIP": ((TEXT,), 1, "Bool"),
    "ip": ((TEXT,), 1, "IP"),
    "isCIDR": ((TEXT,), 1, "Bool"),
    "cidr": ((TEXT,), 1, "CIDR"),
    "sign": ((("Quantity",),), 1, "Int"),
    "optional.of": ((ANY + TYPED,), 1, None),
    "optional.ofNonZeroValue": ((ANY,), 1, None),
    "optional.none": ((), 0, OPTIONAL_DYN),
    "sets.contains": ((LIST, LIST), 2, "Bool"),
    "sets.intersects": ((LIST, LIST), 2, "Bool"),
    "sets.equivalent": ((LIST, LIST), 2, "Bool"),
}
# the first words of qualified names, those of libraries that are refused too
NAMESPACES = ("optional", "sets", "format", "cel", "math", "strings", "lists", "regex", "ip", "base64", "proto")
# the functions that make a typed value, which takes one of its own kind too
MAKERS = {
    "quantity": "Quantity", "duration": "Duration", "timestamp": "Timestamp", "semver": "Semver", "ip": "IP",
    "cidr": "CIDR",
}
KINDS_TESTED = ("int", "string", "bool", "null_type", "list", "map")

# name: signatures, of which the first that takes the receiver counts
METHODS: dict[str, list[tuple[tuple[Any, ...], tuple[Any, ...], int, Any]]] = {
    "size": [(SIZED, (), 0, "Int")],
    "startsWith": [(TEXT, (TEXT,), 1, "Bool")],
    "endsWith": [(TEXT, (TEXT,), 1, "Bool")],
    "contains": [(TEXT, (TEXT,), 1, "Bool")],
    "lowerAscii": [(TEXT, (), 0, "String")],
    "upperAscii": [(TEXT, (), 0, "String")],
    "trim": [(TEXT, (), 0, "String")],
    "charAt": [(TEXT, (INT,), 1, "String")],
    "substring": [(TEXT, (INT, INT), 1, "String")],
    "split": [(TEXT, (TEXT, INT), 1, "List")],
    "replace": [(TEXT, (TEXT, TEXT, INT), 2, "String")],
    "matches": [(TEXT, (TEXT,), 1, "Bool")],
    "find": [(TEXT, (TEXT,), 1, "String")],
    "findAll": [(TEXT, (TEXT, INT), 1, "List")],
    "indexOf": [(TEXT, (TEXT, INT), 1, "Int"), (LIST, (ANY,), 1, "Int")],
    "lastIndexOf": [(TEXT, (TEXT, INT), 1, "Int"), (LIST, (ANY,), 1, "Int")],
    "isSorted": [(LIST, (), 0, "Bool")],
    "min": [(LIST, (), 0, "Dyn")],
    "max": [(LIST, (), 0, "Dyn")],
    "sum": [(LIST, (), 0, "Int")],
    "distinct": [(LIST, (), 0, "List")],
    "reverse": [(LIST, (), 0, "List")],
    "slice": [(LIST, (INT, INT), 2, "List")],
    "join": [(LIST, (TEXT,), 1, "String")],
    "first": [(LIST, (), 0, OPTIONAL_DYN)],
    "last": [(LIST, (), 0, OPTIONAL_DYN)],
}
COMPARES = {"isLessThan": "Bool", "isGreaterThan": "Bool", "compareTo": "Int"}
OF_DURATIONS = ("getHours", "getMinutes", "getSeconds", "getMilliseconds")
OF_TIMESTAMPS = (
    *OF_DURATIONS, "getFullYear", "getMonth", "getDate", "getDayOfMonth", "getDayOfWeek", "getDayOfYear",
)
OF_TYPED: dict[str, dict[str, tuple[tuple[Any, ...], int, str]]] = {
    "Quantity": {
        **{name: ((("Quantity",),), 1, result) for name, result in COMPARES.items()},
        "add": ((("Quantity", "literal"),), 1, "Quantity"),
        "sub": ((("Quantity", "literal"),), 1, "Quantity"),
        "isInteger": ((), 0, "Bool"),
        "asInteger": ((), 0, "Int"),
    },
    "Semver": {
        **{name: ((("Semver",),), 1, result) for name, result in COMPARES.items()},
        **{name: ((), 0, "Int") for name in ("major", "minor", "patch")},
    },
    "Duration": {name: ((), 0, "Int") for name in OF_DURATIONS},
    "Timestamp": {name: ((), 0, "Int") for name in OF_TIMESTAMPS},
    "IP": {"family": ((), 0, "Int"), "isUnspecified": ((), 0, "Bool"), "isLoopback": ((), 0, "Bool")},
    "CIDR": {"containsIP": ((("IP", "String"),), 1, "Bool"), "prefixLength": ((), 0, "Int")},
}
# what needs the call of the maker itself, not a value of its kind
OF_CALLS = {
    "Quantity": ("isInteger", "asInteger"), "Semver": ("major", "minor", "patch"), "Timestamp": OF_TIMESTAMPS,
}
OF_OPTIONALS = {"hasValue": 0, "value": 0, "orValue": 1, "or": 1}
KNOWN_METHODS = {*METHODS, *OF_OPTIONALS, *(name for one in OF_TYPED.values() for name in one)}
