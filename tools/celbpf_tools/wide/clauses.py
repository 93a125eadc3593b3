"""How often each clause of the definition is evaluated."""

from collections import Counter
from typing import Any

from . import lists, texts
from .signatures import FUNCTIONS, OF_TYPED

# what depends on the text of a quantity
HELD = ("isInteger", "asInteger")
MACROS_OF_ONE = ("all", "exists", "exists_one", "filter", "map")
MACROS_OF_TWO = ("all", "exists", "exists_one", "existsOne", "transformList")
BINARY = ("&&", "||", "+", "-", "*", "/", "%", "<", "<=", ">", ">=", "in")
EXPECTED = [
    "literal", "uint", "root", "root after a dot", "root after a dot that a name hides", "iteration name",
    "iteration name that hides a root", "variable",
    "field", "field of none", "field of some",
    *(f"optional field: {one}" for one in ("some", "none", "error")),
    "index", "index of none", "index of some",
    *(f"optional index: {one}" for one in ("some", "none", "error")),
    "has: True", "has: False", "has of null", "has of none", "has of some: True", "has of some: False",
    "! of 1", "- of 1", *(f"{sign} of 2" for sign in BINARY),
    "conditional", "conditional without a bool",
    "equality", "equality of optional", "equality of typed", "equality of error",
    "in an empty list", "in an empty list of the error",
    "order of typed", "+ of times", "- of times", "negative duration",
    "list", "item of some", "item of none", "item of the error",
    "map: True", "map: False", "entry of some", "entry of none",
    *(f"{word} over {kind} by 1" for word in MACROS_OF_ONE for kind in ("list", "map")),
    *(f"{word} over {kind} by 2" for word in MACROS_OF_TWO for kind in ("list", "map")),
    *(f"{word} over neither" for word in {*MACROS_OF_ONE, *MACROS_OF_TWO}),
    *(f"{word} of {one}" for word in ("optMap", "optFlatMap") for one in ("some", "none", "error")),
    *(f"type {one}" for one in ("int", "string", "bool", "null_type", "list", "map")), "type of the error",
    # optionals
    "hasValue", "hasValue of error", "value of some", "value of none", "value of error",
    *(f"{word} of {one}" for word in ("orValue", "or") for one in ("some", "none", "error")),
    # functions and methods, with a value and without
    *(f"{name}: True" for name in FUNCTIONS if name not in ("type", "dyn")),
    *(f"{name}: False" for name in FUNCTIONS if name not in ("type", "dyn", "optional.none")),
    "string of a bool", "format", *(f"format {name}: True" for name in texts.NAMED_FORMATS),
    *(f"{name} of text: True" for name in (*texts.METHODS, "matches", "find", "findAll")),
    *(f"{name} of text: False" for name in ("charAt", "substring", "indexOf", "lastIndexOf")),
    *(f"{name} of the error" for name in (*texts.METHODS, "matches", "find", "findAll")),
    *(f"{name} of list: True" for name in (*lists.METHODS, "first", "last")),
    *(f"{name} of list: False" for name in ("min", "max", "sum", "join", "slice")),
    *(f"{name} of the error" for name in (*lists.METHODS, "first", "last")),
    *(f"{name} of {kind}: True" for kind, names in OF_TYPED.items() for name in names if name not in HELD),
    *(f"{name} of the error" for kind, names in OF_TYPED.items() for name in names if name not in HELD),
    "containsIP of CIDR: False",
    *(f"{name}: {one}" for name in HELD for one in (True, False)),
]


# what the profile defines otherwise
APART = ("has of null", "in an empty list of the error", "string of a bool")


class Clauses:
    """Counts of clauses."""

    def __init__(self) -> None:
        self.counts: Counter[Any] = Counter()

    def add(self, clause: str) -> None:
        self.counts[clause] += 1

    def apart(self) -> list[Any]:
        """The clauses that were evaluated and that the profile defines otherwise."""
        return [clause for clause in APART if self.counts[clause]]

    def never(self, expected: list[Any]) -> list[Any]:
        """The expected clauses that were never evaluated."""
        return [clause for clause in expected if not self.counts[clause]]
