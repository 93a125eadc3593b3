"""JSON documents."""

import json
from typing import Any

from .refused import Refused
from .values import GREATEST, LEAST


class NoInt:
    """A number that is no int of 64 bits."""


def int_of(spelled: str) -> Any:
    """A number without a fraction; `-0` is one of the floats."""
    number = int(spelled)
    return NoInt() if spelled == "-0" or not LEAST <= number <= GREATEST else number


def refuse_constant(spelled: Any) -> None:
    raise ValueError(spelled)


def read(document: bytes, number: str) -> dict[str, Any]:
    """What a document says; with this refusal where it is no JSON."""
    try:
        text = document.decode()
        read_text = json.loads(
            text, parse_int=int_of, parse_float=lambda _: NoInt(), parse_constant=refuse_constant
        )
        json.dumps(read_text, ensure_ascii=False, default=lambda _: None).encode()
        return read_text
    except ValueError as why:
        raise Refused(number) from why


def has_other_number(value: Any) -> bool:
    """Whether a number that is no int of 64 bits stands in a value."""
    if isinstance(value, dict):
        return any(map(has_other_number, value.values()))
    if isinstance(value, list):
        return any(map(has_other_number, value))
    return isinstance(value, NoInt)
