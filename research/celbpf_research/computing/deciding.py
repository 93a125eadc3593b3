"""Whether a statement is true: yes, no, or nothing where that is not computed here."""

from typing import Any, Callable, Optional

from .natives import integer
from .values import Statement, Unknown, are_equal, force

COMPARED: dict[str, Callable[..., Any]] = {
    "≡": are_equal,
    "≢": lambda one, other: not are_equal(one, other),
    "<": lambda one, other: force(one) < force(other),
    "≤": lambda one, other: force(one) <= force(other),
    "<ℤ": lambda one, other: integer(one) < integer(other),
    "≤ℤ": lambda one, other: integer(one) <= integer(other),
    "holds": force,
}


def is_true(value: Any) -> Optional[bool]:
    """Whether a statement is true."""
    try:
        found = force(value)
        if found.__class__ is not Statement:
            return None
        if found.sign in COMPARED:
            return bool(COMPARED[found.sign](*found.parts))
    except Unknown:
        return None
    return joined(found)


def joined(found: Statement) -> Optional[bool]:
    """Whether a statement is true that joins others."""
    if found.sign == "×":
        return all_of(found.parts)
    if found.sign == "→":
        premise = is_true(found.parts[0])
        if premise is False:
            return True
        result = is_true(found.parts[1])
        return result if premise or result else None
    one, other = (is_true(part) for part in found.parts)
    if found.sign == "⊎":
        return True if True in (one, other) else None if None in (one, other) else False
    return None if None in (one, other) else one == other


def all_of(parts: tuple[Any, ...]) -> Optional[bool]:
    """Whether all statements are true; the rest is not looked at after one that is not."""
    found: Optional[bool] = True
    for part in parts:
        answer = is_true(part)
        if answer is False:
            return False
        found = None if answer is None else found
    return found
