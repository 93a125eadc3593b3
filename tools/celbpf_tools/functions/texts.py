"""Texts from a seed: durations, timestamps and versions, and such texts with a fault."""

from typing import Callable, Iterator

from ..seeded.numbers import Numbers

UNITS = ["h", "m", "s", "ms", "us", "µs", "μs", "ns", "ns", "s", "d", "S", ""]
EDGES = ["9223372036854775807", "9223372036854775808", "9223372036", "2562047", "16777216", "4096", "0", "1", "00", "59", "60"]
SIGNS = ["", "", "", "-", "+", "--"]
OFFSETS = ["Z", "Z", "Z", "+00:00", "-08:00", "+23:59", "-23:59", "+24:00", "+05:60", "z", "", "+0530", "-00:01"]
YEARS = ["0000", "0001", "1582", "1900", "1970", "2000", "2024", "2026", "9999"]
NAMES = ["alpha", "beta", "rc", "x-y", "-", "0", "1", "10", "01", "0a", "18446744073709551615", "18446744073709551616", "", "é", "A"]
NUMBERS = ["0", "1", "2", "10", "007", "00", "01", "18446744073709551615", "18446744073709551616", "x", "", "-"]
OTHERS = list(".:-+TZ09 vamsh_,") + ["é"]


def digits(numbers: Numbers, most: int) -> str:
    return "".join(str(numbers.below(10)) for _ in range(numbers.below(most + 1)))


def amount(numbers: Numbers) -> str:
    """A number with a point or none."""
    whole: str = numbers.pick(EDGES) if numbers.one_in(4) else digits(numbers, 8)
    if not numbers.one_in(3):
        return whole
    return f"{whole}.{'9' * numbers.below(12) if numbers.one_in(3) else digits(numbers, 12)}"


def duration(numbers: Numbers) -> str:
    if numbers.one_in(8):
        return f"{numbers.pick(EDGES)}.{'9' * (6 + numbers.below(4))}{numbers.pick(['s', 'm', 'h'])}"
    parts = [amount(numbers) + numbers.pick(UNITS) for _ in range(1 + numbers.below(3))]
    return f"{numbers.pick(SIGNS)}{''.join(parts)}"


def pair(numbers: Numbers, most: int) -> str:
    return f"{numbers.below(most):02}"


def timestamp(numbers: Numbers) -> str:
    year = numbers.pick(YEARS) if numbers.one_in(2) else f"{numbers.below(10000):04}"
    month = numbers.pick(["02", "12", "01"]) if numbers.one_in(2) else pair(numbers, 14)
    day = numbers.pick(["28", "29", "30", "31"]) if numbers.one_in(2) else pair(numbers, 33)
    clock = f"{pair(numbers, 25)}:{pair(numbers, 61)}:{pair(numbers, 61)}"
    fraction = f".{digits(numbers, 12)}" if numbers.one_in(3) else ""
    return f"{year}-{month}-{day}T{clock}{fraction}{numbers.pick(OFFSETS)}"


def name(numbers: Numbers) -> str:
    return ".".join(numbers.pick(NAMES) for _ in range(1 + numbers.below(3)))


def version(numbers: Numbers) -> str:
    count = 3 if numbers.below(4) else 1 + numbers.below(4)
    text = ".".join(numbers.pick(NUMBERS) if numbers.one_in(6) else str(numbers.below(20)) for _ in range(count))
    pre = f"-{name(numbers)}" if numbers.one_in(2) else ""
    build = f"+{name(numbers)}" if numbers.one_in(3) else ""
    return f"{'v' * numbers.pick([0, 0, 0, 1, 2])}{text}{pre}{build}"


def changed(numbers: Numbers, text: str) -> str:
    """The text with a character left out, put in or replaced."""
    at = numbers.below(len(text) + 1)
    other = numbers.pick(OTHERS) if numbers.below(3) else ""
    return f"{text[:at]}{other}{text[at + numbers.below(2) :]}"


KINDS: dict[str, Callable[[Numbers], str]] = {"d": duration, "t": timestamp, "v": version, "n": version}


def texts(numbers: Numbers, count: int) -> Iterator[str]:
    """`count` lines, each the letter of a function, a blank and a text."""
    for _ in range(count):
        kind = numbers.pick(list(KINDS))
        text = KINDS[kind](numbers)
        if numbers.one_in(4):
            text = changed(numbers, text)
        yield f"{kind} {text}"
