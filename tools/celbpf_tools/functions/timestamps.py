"""Timestamps, as specs/Timestamps, specs/Calendar and specs/Fields of `timestamps` define them."""

from typing import Optional

from .numerals import DIGITS, digits_len, number

SECOND = 10**9
# the second from the start of year 0 with which 1970 begins
START = 62167219200
FIRST, END = -62135596800 * SECOND, 253402300800 * SECOND


def is_leap(year: int) -> bool:
    return year % 4 == 0 and (year % 100 != 0 or year % 400 == 0)


def days_in(leap: bool, month: int) -> int:
    if month == 2:
        return 29 if leap else 28
    return 30 if month in (4, 6, 9, 11) else 31


def days_of_months(leap: bool, count: int) -> int:
    return sum(days_in(leap, month) for month in range(1, count + 1))


def days_before_year(year: int) -> int:
    return 365 * year + (year + 3) // 4 + (year + 399) // 400 - (year + 99) // 100


def pair(text: bytes, at: int) -> Optional[int]:
    digits = text[at : at + 2]
    return int(digits) if len(digits) == 2 and all(byte in DIGITS for byte in digits) else None


def day_of(text: bytes) -> Optional[int]:
    century, rest, month, day = (pair(text, at) for at in (0, 2, 5, 8))
    if century is None or rest is None or month is None or day is None or text[4:5] + text[7:8] != b"--":
        return None
    year = 100 * century + rest
    leap = is_leap(year)
    if not (1 <= month <= 12 and 1 <= day <= days_in(leap, month)):
        return None
    return days_before_year(year) + days_of_months(leap, month - 1) + day - 1


def minutes_at(text: bytes, at: int) -> Optional[int]:
    hour, minute = pair(text, at), pair(text, at + 3)
    if hour is None or minute is None or text[at + 2 : at + 3] != b":" or hour >= 24 or minute >= 60:
        return None
    return 60 * hour + minute


def seconds_of(text: bytes) -> Optional[int]:
    minutes, second = minutes_at(text, 11), pair(text, 17)
    if minutes is None or second is None or text[10:11] + text[16:17] != b"T:" or second >= 60:
        return None
    return 60 * minutes + second


def fraction_of(text: bytes) -> Optional[tuple[int, bytes]]:
    """The nanoseconds of a point and digits, and what follows."""
    if text[:1] != b".":
        return 0, text
    digits, rest = text[1 : 1 + digits_len(text[1:])], text[1 + digits_len(text[1:]) :]
    return (number(digits[:9]) * 10 ** max(0, 9 - len(digits)), rest) if digits else None


def offset_of(text: bytes) -> Optional[int]:
    if text == b"Z":
        return 0
    minutes = minutes_at(text, 1) if len(text) == 6 else None
    if minutes is None or text[:1] not in (b"+", b"-"):
        return None
    return 60 * minutes if text[:1] == b"+" else -60 * minutes


def timestamp(text: bytes) -> Optional[int]:
    """The nanoseconds since 1970."""
    day, seconds, fraction = day_of(text), seconds_of(text), fraction_of(text[19:])
    if day is None or seconds is None or fraction is None:
        return None
    offset = offset_of(fraction[1])
    if offset is None:
        return None
    moment = (86400 * day + seconds - offset - START) * SECOND + fraction[0]
    return moment if FIRST <= moment < END else None


def fields(moment: int) -> list[int]:
    """The year, the month from 1, the day, those of the year and the week, and the clock to milliseconds."""
    passed = moment + START * SECOND
    day = passed // (86400 * SECOND)
    year = max(year for year in range(day // 366, day // 365 + 1) if days_before_year(year) <= day)
    rest = day - days_before_year(year)
    month = max(month for month in range(1, 13) if days_of_months(is_leap(year), month - 1) <= rest)
    date = rest - days_of_months(is_leap(year), month - 1) + 1
    clock = [passed // (3600 * SECOND) % 24, passed // (60 * SECOND) % 60, passed // SECOND % 60, passed // 10**6 % 1000]
    return [year, month, date, rest, (day + 6) % 7, *clock]
