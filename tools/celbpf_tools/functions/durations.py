"""Durations, as specs/Durations and specs/Parts of `durations` define them."""

from typing import Optional, Union

from .numerals import number, written

HOUR, MINUTE, SECOND, MILLISECOND = 3600 * 10**9, 60 * 10**9, 10**9, 10**6
FINE = "fine"
# the units, with their nanoseconds and the places after a point that are read
UNITS = {
    "h": (HOUR, 11),
    "m": (MINUTE, 10),
    "s": (SECOND, 9),
    "ms": (MILLISECOND, 6),
    "us": (1000, 3),
    "\u00b5s": (1000, 3),
    "\u03bcs": (1000, 3),
    "ns": (1, 0),
}
OF_NAMES = {name.encode(): unit for name, unit in UNITS.items()}
OF_NUMBERS = b"0123456789."


def unit_len(text: bytes) -> int:
    return next((at for at, byte in enumerate(text) if byte in OF_NUMBERS), len(text))


def first(text: bytes) -> tuple[Union[int, str, None], bytes]:
    """The nanoseconds of the number at the front, and what follows its unit."""
    whole, fraction, rest = written(text)
    name, rest = rest[: unit_len(rest)], rest[unit_len(rest) :]
    if name not in OF_NAMES or not (whole or fraction):
        return None, rest
    size, places = OF_NAMES[name]
    if len(fraction) > places:
        return FINE, rest
    exact = number(whole) * size + number(fraction) * size // 10 ** len(fraction)
    return (exact if exact <= 2**63 else None), rest


def unsigned(text: bytes) -> Union[int, str, None]:
    if text == b"0":
        return 0
    total: Optional[int] = 0 if text else None
    while text and total is not None:
        size, text = first(text)
        if not isinstance(size, int):
            return size
        total = total + size if total + size <= 2**63 else None
    return total


def duration(text: bytes) -> Union[int, str, None]:
    """The nanoseconds; `FINE` for one with too many places, `None` for what is no duration."""
    size = unsigned(text[1:] if text[:1] in (b"-", b"+") else text)
    if not isinstance(size, int):
        return size
    if text[:1] == b"-":
        return -size
    return size if size < 2**63 else None


def cut(number_: int, unit: int) -> int:
    """A division that is cut toward 0."""
    return abs(number_) // unit * (1 if number_ >= 0 else -1)


def whole_units(nanoseconds: int, unit: int) -> int:
    """The whole units, by doubles."""
    units = cut(nanoseconds, unit)
    return int(float(units) + float(nanoseconds - units * unit) / float(unit))


def parts(nanoseconds: int) -> list[int]:
    """The whole hours, minutes, seconds and milliseconds."""
    return [*(whole_units(nanoseconds, unit) for unit in (HOUR, MINUTE, SECOND)), cut(nanoseconds, MILLISECOND)]
