"""Versions, as specs/Identifiers, specs/Versions and specs/Order of `versions` define them."""

from typing import NamedTuple, Optional

from .numerals import DIGITS, digits_len, number

LETTERS = b"abcdefghijklmnopqrstuvwxyzABCDEFGHIJKLMNOPQRSTUVWXYZ-"


class Version(NamedTuple):
    major: int
    minor: int
    patch: int
    pre: bytes


def is_identifier(part: bytes) -> bool:
    return bool(part) and all(byte in DIGITS + LETTERS for byte in part)


def is_numeric(part: bytes) -> bool:
    return all(byte in DIGITS for byte in part)


def has_zero(digits: bytes) -> bool:
    return len(digits) > 1 and digits[:1] == b"0"


def is_small(digits: bytes) -> bool:
    return number(digits) < 2**64


def is_pre_identifier(part: bytes) -> bool:
    return is_identifier(part) and (not is_numeric(part) or (not has_zero(part) and is_small(part)))


def pre_of(text: bytes) -> Optional[bytes]:
    """The pre-release after a hyphen, or nothing."""
    if not text:
        return text
    is_pre = text[:1] == b"-" and all(is_pre_identifier(part) for part in text[1:].split(b"."))
    return text[1:] if is_pre else None


def ending(text: bytes) -> Optional[bytes]:
    """The pre-release of what follows the numbers."""
    before, plus, build = text.partition(b"+")
    if plus and not all(is_identifier(part) for part in build.split(b".")):
        return None
    return pre_of(before)


Found = Optional[tuple[int, bytes]]


def number_at(normalize: bool, text: bytes) -> Found:
    digits, rest = text[: digits_len(text)], text[digits_len(text) :]
    allowed = bool(digits) and (normalize or not has_zero(digits)) and is_small(digits)
    return (number(digits), rest) if allowed else None


def minor_at(normalize: bool, rest: bytes) -> Found:
    if normalize and not rest:
        return 0, rest
    return number_at(normalize, rest[1:]) if rest[:1] == b"." else None


def patch_at(normalize: bool, rest: bytes) -> Found:
    text = rest[1:]
    if normalize and rest[:1] == b"." and digits_len(text) == 0 and len(text) > 1:
        return 0, text
    return minor_at(normalize, rest)


def version(normalize: bool, text: bytes) -> Optional[Version]:
    major = number_at(normalize, text[1:] if normalize and text[:1] == b"v" else text)
    minor = minor_at(normalize, major[1]) if major else None
    patch = patch_at(normalize, minor[1]) if minor else None
    pre = ending(patch[1]) if patch else None
    if not (major and minor and patch) or pre is None:
        return None
    return Version(major[0], minor[0], patch[0], pre)


def order(a: object, b: object) -> int:
    """-1, 0 or 1."""
    return int(a > b) - int(a < b)  # type: ignore[operator]


def identifier_order(a: bytes, b: bytes) -> int:
    if is_numeric(a):
        return order(number(a), number(b)) if is_numeric(b) else -1
    return 1 if is_numeric(b) else order(a, b)


def pre_order(a: bytes, b: bytes) -> int:
    if not (a and b):
        return order(not a, not b)
    first, second = a.split(b"."), b.split(b".")
    orders = (identifier_order(one, other) for one, other in zip(first, second))
    return next((found for found in orders if found), order(len(first), len(second)))


def precedence(a: Version, b: Version) -> int:
    return order(a[:3], b[:3]) or pre_order(a.pre, b.pre)
