"""The smallest documents that still differ."""

from dataclasses import replace
from typing import Any, Callable

from .answers import Case

NAMES = ("params", "namespace", "review")


def smaller(document: bytes, differs: Callable[[bytes], bool]) -> bytes:
    """A document with bytes left out, as long as it still differs: long pieces first."""
    length = max(len(document) // 2, 1)
    while length:
        place = 0
        while place < len(document):
            shorter = document[:place] + document[place + length:]
            if differs(shorter):
                document = shorter
            else:
                place += length
        length //= 2
    return document


def smallest(case: Case, differs: Callable[[Case], bool]) -> Any:
    """A case without what it needs not to differ."""
    for name in NAMES:
        if getattr(case, name) is None:
            continue
        if name != "review" and differs(replace(case, **{name: None})):
            case = replace(case, **{name: None})
            continue
        whole = case
        shrunk = smaller(getattr(case, name), lambda document: differs(replace(whole, **{name: document})))
        case = replace(case, **{name: shrunk})
    return case
