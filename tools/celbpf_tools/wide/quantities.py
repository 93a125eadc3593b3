"""Kubernetes quantities, such as `250m` and `1.5Gi`."""

import re
from fractions import Fraction
from math import ceil
from typing import Optional

from ..evaluator.values import GREATEST, LEAST
from .results import Quantity

FORM = re.compile(r"([+-]?)([0-9]*)(?:(\.)([0-9]*))?([KMGTPE]i|[numkMGTPE]|[eE][+-]?[0-9]+|)", re.ASCII)
DECIMAL = {"n": -9, "u": -6, "m": -3, "": 0, "k": 3, "M": 6, "G": 9, "T": 12, "P": 15, "E": 18}
BINARY = {"Ki": 10, "Mi": 20, "Gi": 30, "Ti": 40, "Pi": 50, "Ei": 60}
PLACES = 10**9
# a greater exponent counts as this one: no number that is compared here lies between
MOST_EXPONENT = 4_000


class Spelled:
    """A text as the grammar of quantities divides it."""

    def __init__(self, match: re.Match[str]):
        sign, self.whole, point, self.places, suffix = match.groups("")
        self.sign = -1 if sign == "-" else 1
        self.binary = BINARY.get(suffix)
        self.exponent = DECIMAL.get(suffix, 0)
        if suffix not in DECIMAL and suffix not in BINARY:
            self.exponent = int(suffix[1:])

    def size(self) -> Fraction:
        """The number without its sign."""
        digits = int(self.whole + self.places or "0")
        if not digits:
            return Fraction(0)
        number = Fraction(digits, 10 ** len(self.places))
        exponent = max(-MOST_EXPONENT, min(self.exponent, MOST_EXPONENT))
        number *= 2**self.binary if self.binary else Fraction(10) ** exponent
        rounded = Fraction(ceil(number * PLACES), PLACES)
        return min(rounded, Fraction(GREATEST)) if self.binary else rounded

    def integer(self) -> Optional[int]:
        """The int that the quantity is held as, or None."""
        digits = len(self.whole.lstrip("0") or "0") + len(self.places)
        room, scale, held = 18 - digits, self.exponent - len(self.places), int(self.whole + self.places or "0")
        if self.binary:
            if self.places:
                return None
            room, held = 15 - digits - self.binary * 3 // 10 - 1, held << self.binary
        if room < 0 or scale < 0 or not LEAST <= held <= GREATEST:
            return None
        if held == 0:
            return 0
        value = self.sign * held * 10**scale if scale < 20 else GREATEST + 1
        return value if LEAST <= value <= GREATEST else None


def spelled(text: str) -> Optional[Spelled]:
    """How a text spells a quantity, or None."""
    match = FORM.fullmatch(text)
    if not match or not text:
        return None
    found = Spelled(match)
    return found if LEAST <= found.exponent <= GREATEST else None


def quantity(text: str) -> Optional[Quantity]:
    found = spelled(text)
    return Quantity(found.sign * found.size()) if found else None


def integer_of(text: str) -> Optional[int]:
    """The int that the quantity of a text is held as, or None."""
    found = spelled(text)
    return found.integer() if found else None
