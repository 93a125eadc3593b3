"""The values of expressions: null, bools, ints of 64 bits, texts, lists, maps from texts, and the error.

They are Python's None, bool, int, str, list and dict. No list or map holds the error.
"""

from typing import Any


class Error:
    """The one error."""

    def __repr__(self) -> Any:
        return "error"


ERROR = Error()
LEAST, GREATEST = -(2**63), 2**63 - 1
KINDS = {type(None): "null", bool: "bool", int: "int", str: "text", list: "list", dict: "map", Error: "error"}


def kind(value: Any) -> str:
    """The word for the kind of a value, or `error`."""
    return KINDS[type(value)]


def kinds(*values: Any) -> tuple[Any, ...]:
    """The words for the kinds of several."""
    return tuple(kind(value) for value in values)


def in_range(number: int) -> Any:
    """The int of this number, or the error where 64 bits do not hold it."""
    return number if LEAST <= number <= GREATEST else ERROR


def equal(left: Any, right: Any) -> bool:
    """Deep equality of two values; values of different kinds are unequal."""
    if kind(left) != kind(right):
        return False
    if isinstance(left, list):
        return len(left) == len(right) and all(map(equal, left, right))
    if isinstance(left, dict):
        return left.keys() == right.keys() and all(equal(left[key], right[key]) for key in left)
    return left == right


def length(text: str) -> int:
    """The bytes of a text in UTF-8."""
    return len(text.encode())


def size(value: Any) -> int:
    """How large a value is: one for each part, and the bytes of its texts and keys. The error has 1."""
    if isinstance(value, str):
        return 1 + length(value)
    if isinstance(value, list):
        return 1 + sum(size(item) for item in value)
    if isinstance(value, dict):
        return 1 + sum(1 + length(key) + size(item) for key, item in value.items())
    return 1


def depth(value: Any) -> int:
    """How deep lists and maps are nested in a value; 0 where it is neither."""
    if isinstance(value, (list, dict)):
        items = value.values() if isinstance(value, dict) else value
        return 1 + max((depth(item) for item in items), default=0)
    return 0


def in_byte_order(keys: dict[str, Any]) -> list[Any]:
    """Keys in the order of their bytes in UTF-8."""
    return sorted(keys, key=str.encode)
