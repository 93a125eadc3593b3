"""Values with the line at which they begin."""

from dataclasses import dataclass
from typing import Any, Optional


@dataclass
class Located:
    """A value, and the line at which it begins, counted from 1."""

    value: Any
    line: int


@dataclass
class Document:
    """A document: its value and line, the items of its list `items` if it has one, and whether a number may be no int."""

    value: Any
    line: int
    items: Optional[list[Located]]
    has_floats: bool
