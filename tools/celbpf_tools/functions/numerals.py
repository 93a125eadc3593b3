"""Numbers at the front of a text, as specs/Numbers of `text_numbers` defines them."""

DIGITS = b"0123456789"


def digits_len(text: bytes) -> int:
    """The number of digits at the front."""
    return len(text) - len(text.lstrip(DIGITS))


def number(digits: bytes) -> int:
    return int(digits) if digits else 0


def written(text: bytes) -> tuple[bytes, bytes, bytes]:
    """The digits before and after a point, and the text that follows."""
    whole, rest = text[: digits_len(text)], text[digits_len(text) :]
    if rest[:1] != b".":
        return whole, b"", rest
    end = 1 + digits_len(rest[1:])
    return whole, rest[1:end], rest[end:]
