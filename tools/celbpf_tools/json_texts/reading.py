"""What a document is: by Python's json, and by these rules where that takes other texts than the program.

- The bytes are UTF-8, without a byte order mark.
- `NaN`, `Infinity` and `-Infinity` are no numbers.
- A `\\u` escape of a surrogate stands in a pair, in keys and in members that are overwritten or skipped too.
- A number is refused if the nearest double is infinite.
- Lists and maps are nested at most 127 deep, whether or not they are kept.
"""

import json
import re
from typing import Any, Callable

DEEPEST = 127
LEAST, MOST = -(2**63), 2**63 - 1
# the most digits of an int that can be one of 64 bits
DIGITS = 20
# what a text ends with or nests by, and what may stand before a quote inside a text
MARKS = re.compile(r'\\.|["\[\]{}]')


class NotJson(Exception):
    """The bytes are no JSON document."""


class Other:
    """A number that is no 64-bit int."""


def int_read(digits: str) -> Any:
    """The value of a number without a point and an exponent."""
    if len(digits) <= DIGITS and digits != "-0" and LEAST <= int(digits) <= MOST:
        return int(digits)
    return float_read(digits)


def float_read(digits: str) -> Other:
    """Any other number, which is to have a nearest double."""
    if float(digits) in (float("inf"), float("-inf")):
        raise NotJson("a number too large for a double")
    return Other()


def constant_read(name: str) -> Any:
    raise NotJson(f"{name} is no number")


def has_half_a_pair(literal: str) -> bool:
    """Whether a text literal has an escape of a surrogate that is in no pair."""
    return "\\u" in literal and any("\ud800" <= one <= "\udfff" for one in json.loads(literal))


def look_at_marks(text: str) -> None:
    """Refuses a JSON text that is nested too deep, or has half a pair of surrogates."""
    depth, begin = 0, -1
    for mark in MARKS.finditer(text):
        if mark[0] == '"':
            if begin >= 0 and has_half_a_pair(text[begin:mark.end()]):
                raise NotJson("half a pair of surrogates")
            begin = -1 if begin >= 0 else mark.start()
        elif begin < 0:
            depth += 1 if mark[0] in "[{" else -1
            if depth > DEEPEST:
                raise NotJson("nested too deep")


def document_of(given: bytes) -> Any:
    """The value of a document: of a key that is repeated the last one."""
    try:
        text = given.decode("utf-8")
        value = json.loads(text, parse_int=int_read, parse_float=float_read, parse_constant=constant_read)
    except (UnicodeDecodeError, json.JSONDecodeError) as why:
        raise NotJson(str(why)) from why
    except RecursionError as why:
        raise NotJson("nested too deep") from why
    look_at_marks(text)
    return value


def any_part(value: Any, holds: Callable[[Any], bool]) -> bool:
    """Whether this holds of a value or of one that it has."""
    if isinstance(value, list):
        return any(any_part(item, holds) for item in value)
    if isinstance(value, dict):
        return any(any_part(item, holds) for item in value.values())
    return holds(value)


def has_other(value: Any) -> bool:
    """Whether a number that is no 64-bit int stands in it."""
    return any_part(value, lambda part: isinstance(part, Other))


def written(value: Any) -> str:
    """A value as compact JSON, with its keys in the order of their bytes."""
    if isinstance(value, dict):
        keys = sorted(value, key=lambda key: key.encode())
        return "{" + ",".join(f"{written(key)}:{written(value[key])}" for key in keys) + "}"
    if isinstance(value, list):
        return "[" + ",".join(written(item) for item in value) + "]"
    return json.dumps(value, ensure_ascii=False)


def size_of(value: Any) -> int:
    """The charge of a value."""
    if isinstance(value, dict):
        return 1 + sum(1 + len(key.encode()) + size_of(item) for key, item in value.items())
    if isinstance(value, list):
        return 1 + sum(size_of(item) for item in value)
    return 1 + len(value.encode()) if isinstance(value, str) else 1
