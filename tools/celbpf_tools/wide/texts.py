"""Functions of texts. Each returns None if it has no value."""

import re
from typing import Any, Optional

from ..evaluator.values import ERROR, in_range

INT = re.compile(r"[+-]?[0-9]+")
TRUE = ("1", "t", "T", "true", "TRUE", "True")
FALSE = ("0", "f", "F", "false", "FALSE", "False")
# Unicode's White_Space
BLANKS = (
    "\t\n\v\f\r \x85\xa0\u1680\u2000\u2001\u2002\u2003\u2004\u2005\u2006\u2007\u2008\u2009\u200a"
    "\u2028\u2029\u202f\u205f\u3000"
)
LABEL = r"[a-z0-9](?:[-a-z0-9]*[a-z0-9])?"
NAMED_FORMATS = {
    "dns1123Label": (re.compile(LABEL), 63),
    "dns1123Subdomain": (re.compile(rf"{LABEL}(?:\.{LABEL})*"), 253),
    "dns1035Label": (re.compile(r"[a-z](?:[-a-z0-9]*[a-z0-9])?"), 63),
    "labelValue": (re.compile(r"(?:(?:[A-Za-z0-9][-A-Za-z0-9_.]*)?[A-Za-z0-9])?"), 63),
}


def int_of(text: str) -> Optional[int]:
    if not INT.fullmatch(text):
        return None
    number = in_range(int(text))
    return None if number is ERROR else number


def bool_of(text: str) -> Optional[bool]:
    return True if text in TRUE else False if text in FALSE else None


def breaks(name: str, text: str) -> bool:
    """Whether a text is not of the named format."""
    form, most = NAMED_FORMATS[name]
    return len(text) > most or not form.fullmatch(text)


def in_ascii(text: str, letters: str, others: str) -> str:
    return text.translate(str.maketrans(letters, others))


LOWER, UPPER = "abcdefghijklmnopqrstuvwxyz", "ABCDEFGHIJKLMNOPQRSTUVWXYZ"


def char_at(text: str, place: int) -> Optional[str]:
    return text[place : place + 1] if 0 <= place <= len(text) else None


def substring(text: str, begin: int, end: Optional[int] = None) -> Optional[str]:
    end = len(text) if end is None else end
    return text[begin:end] if 0 <= begin <= end <= len(text) else None


def index_of(text: str, part: str, least: int = 0) -> Optional[int]:
    if least < 0:
        return None
    return text.find(part, least) if part else min(least, len(text))


def last_index_of(text: str, part: str, most: Optional[int] = None) -> Optional[int]:
    if most is None:
        return text.rfind(part)
    if most < 0:
        return None
    if not part:
        return min(most, len(text))
    return text.rfind(part, 0, most + len(part)) if most < len(text) else -1


def split(text: str, separator: str, most: int = -1) -> list[Any]:
    if most == 0:
        return []
    if separator:
        return text.split(separator, most - 1 if most > 0 else -1)
    if most < 0 or len(text) <= most:
        return list(text)
    return [*text[: most - 1], text[most - 1 :]]


def replaced(text: str, old: str, new: str, most: int = -1) -> str:
    return text.replace(old, new, most)


# the kinds of the arguments after the text, of which those after `least` may be missing
METHODS: dict[str, tuple[Any, tuple[Any, ...], int]] = {
    "lowerAscii": (lambda text: in_ascii(text, UPPER, LOWER), (), 0),
    "upperAscii": (lambda text: in_ascii(text, LOWER, UPPER), (), 0),
    "trim": (lambda text: text.strip(BLANKS), (), 0),
    "charAt": (char_at, ("int",), 1),
    "substring": (substring, ("int", "int"), 1),
    "indexOf": (index_of, ("text", "int"), 1),
    "lastIndexOf": (last_index_of, ("text", "int"), 1),
    "split": (split, ("text", "int"), 1),
    "replace": (replaced, ("text", "text", "int"), 2),
}
