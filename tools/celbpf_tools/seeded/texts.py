"""Texts and ints of documents and expressions, and the literals that spell them."""

from typing import Any

TEXTS = [
    "", "a", "b", "ab", "ba", "web", "web-1", "app", "team", "front", "back", "prod", "CREATE", "UPDATE",
    "registry.example.com/web:1", "registry.example.com/", "example.com/owner", ":latest", "a:latest",
    "é", "naïve", "日本", "😀", "a😀b", "it's", 'say "a"', "back\\slash",
    "tab\there", "line\nbreak", "bell\a", "\x7f", "  ",
]
INTS = [
    0, 0, 1, 1, 1, 2, 2, 2, 3, 3, 3, 4, 4, 5, 5, 6, 7, 8, 10, 12, 64, 80, 255, 443, 1000, 8080, 65536,
    -1, -2, -7, 2**31, -(2**31), 2**62, 2**63 - 1, -(2**63),
]
# the characters that always stand as an escape, but for the quote
SHORT = {"\a": "\\a", "\n": "\\n", "\t": "\\t", "\\": "\\\\"}


def escaped(numbers: Any, character: str, quote: str) -> str:
    """A character inside a text literal, by one of the escapes where it needs one, and now and then else."""
    code = ord(character)
    plain = character not in SHORT and character != quote
    if plain and not numbers.one_in(12):
        return character
    if not plain and not numbers.one_in(4):
        return SHORT.get(character, "\\" + character)
    forms = [f"\\u{code:04x}"] if code < 2**16 else []
    if code < 256:
        forms += [f"\\x{code:02X}", f"\\X{code:02x}", f"\\{code:03o}"]
    return numbers.pick([*forms, f"\\U{code:08X}"])


def text_literal(numbers: Any, text: str) -> str:
    """A literal of this text, raw where that can be and is drawn."""
    quote = numbers.pick(["'", "'", '"'])
    if numbers.one_in(6) and quote not in text and "\n" not in text and "\r" not in text:
        return numbers.pick(["r", "R"]) + quote + text + quote
    return quote + "".join(escaped(numbers, one, quote) for one in text) + quote


def int_literal(numbers: Any, number: int) -> str:
    """A literal of this int, in hex now and then."""
    sign, magnitude = ("-" if number < 0 else ""), abs(number)
    if numbers.one_in(8):
        return f"{sign}0x{magnitude:{numbers.pick('xX')}}"
    if numbers.one_in(16):
        return f"{sign}{numbers.pick(['0', '00'])}{magnitude}"
    return f"{sign}{magnitude}"
