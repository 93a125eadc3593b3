"""The text of a quantity, as an API server stores it.

A text that is canonical enough is stored as it was read, also with a `+` or an `E`. Others become the canonical form: no
fraction, and the largest suffix (k8s.io/apimachinery/pkg/api/resource, `ParseQuantity` and `CanonicalizeBytes`).
"""

import re
from dataclasses import dataclass
from decimal import ROUND_UP, Context, Decimal, localcontext

SUFFIXES = {-9: "n", -6: "u", -3: "m", 0: "", 3: "k", 6: "M", 9: "G", 12: "T", 15: "P", 18: "E"}
DECIMAL = {suffix: place for place, suffix in SUFFIXES.items()}
BINARY = ("", "Ki", "Mi", "Gi", "Ti", "Pi", "Ei")
QUANTITY = re.compile(r"(?P<sign>[+-]?)0*(?P<whole>[0-9]*)(?:\.(?P<fraction>[0-9]*))?"
                      r"(?:[eE](?P<exponent>[+-]?[0-9]{1,3})|(?P<suffix>[numkMGTPE]|[KMGTPE]i))?", re.ASCII)
# the most characters of a text that is read exactly
MOST_DIGITS = 40
# a quantity has no digits beyond billionths, those of resources none beyond thousandths, and one with a binary suffix is
# no larger
NANO, MILLI = -9, -3
LARGEST = Decimal(2**63 - 1)
# no sum or product of what is read has more digits
EXACT = Context(prec=2_000)
# the digits of a number that is read as an int of 64 bits
FEW = 18


@dataclass(frozen=True)
class Read:
    """What is read of a text. `is_kept` tells whether it is stored as it was read, `scale` is the place of its last digit."""

    number: Decimal
    form: str
    is_kept: bool
    scale: int = 0


def read(found: re.Match[str]) -> Read:
    """The quantity of a text of this form."""
    whole, fraction, suffix = found["whole"] or "0", found["fraction"] or "", found["suffix"] or ""
    sign = -1 if found["sign"] == "-" else 1
    number, digits = sign * Decimal(f"{whole}.{fraction}0"), whole + fraction
    if suffix in BINARY[1:]:
        power = 10 * BINARY.index(suffix)
        is_few = not fraction and len(whole) < 15 - power * 3 // 10
        return Read(number * (1 << power), "binary", is_few and bool(int(whole) & 7))
    place = int(found["exponent"]) if found["exponent"] else DECIMAL[suffix]
    scale = place - len(fraction)
    is_few = len(digits) <= FEW and scale >= NANO
    is_kept = is_few and scale % 3 == 0 and not digits.endswith("000") and digits[0] != "0"
    return Read(number.scaleb(place), "exponent" if found["exponent"] else "decimal", is_kept, scale)


def rounded(number: Decimal, scale: int) -> Decimal:
    """A number without digits beyond a place, rounded away from zero."""
    return number.quantize(Decimal(1).scaleb(scale), rounding=ROUND_UP)


def decimal_text(number: Decimal, has_exponent: bool) -> str:
    """The canonical text with a decimal suffix or an exponent. A number that needs a larger suffix than `E` has none."""
    exponent = int(number.normalize().as_tuple().exponent) // 3 * 3
    digits = f"{number / (Decimal(10) ** exponent):.0f}"
    if has_exponent:
        return f"{digits}e{exponent}" if exponent else digits
    return digits + SUFFIXES.get(exponent, "")


def binary_text(number: Decimal) -> str:
    """The canonical text with a binary suffix; one below 1,024, or with a fraction, has a decimal suffix."""
    if abs(number) < 1024 or number % 1 != 0:
        return decimal_text(number, False)
    whole = int(number)
    zeros = (whole & -whole).bit_length() - 1
    power = min(zeros // 10, len(BINARY) - 1)
    return f"{whole >> (10 * power)}{BINARY[power]}"


def stored(text: str, is_resource: bool = False) -> str:
    """The text that is stored of a quantity, in a list of resources rounded up to thousandths; a text that is no quantity is
    unchanged, and so is one of too many digits.
    """
    found = QUANTITY.fullmatch(text.strip()) if len(text) <= MOST_DIGITS else None
    if not found or not re.search("[0-9]", text.partition("e")[0].partition("E")[0]):
        return text
    with localcontext(EXACT):
        one = read(found)
        number = rounded(one.number, NANO)
        if one.form == "binary" and abs(number) > LARGEST:
            number = LARGEST.copy_sign(number)
        if is_resource and one.scale < MILLI or one.form == "binary" and is_resource and not one.is_kept:
            number = rounded(number, MILLI)
        elif one.is_kept:
            return text.strip()
        if number == 0:
            return "0"
        return binary_text(number) if one.form == "binary" else decimal_text(number, one.form == "exponent")
