"""Durations as Go reads them, and timestamps of RFC 3339."""

import re
from datetime import date
from typing import Any, Optional

from ..evaluator.values import ERROR, GREATEST, LEAST
from .results import Duration, Timestamp

UNITS = {
    "h": 3_600_000_000_000, "m": 60_000_000_000, "s": 1_000_000_000, "ms": 1_000_000,
    "us": 1_000, "µs": 1_000, "μs": 1_000, "ns": 1,
}
DURATION = re.compile(r"([+-]?)((?:(?:[0-9]+(?:\.[0-9]*)?|\.[0-9]+)(?:h|ms|m|us|µs|μs|s|ns))+|0)")
PART = re.compile(r"([0-9]*)(?:\.([0-9]*))?(h|ms|m|us|µs|μs|s|ns)")
MOST = 2**63
TIMESTAMP = re.compile(
    r"([0-9]{4})-([0-9]{2})-([0-9]{2})T([0-9]{2}):([0-9]{2}):([0-9]{2})(?:\.([0-9]+))?"
    r"(?:Z|([+-])([0-9]{2}):([0-9]{2}))"
)
SECOND, DAY = 10**9, 86_400 * 10**9
EPOCH = date(1970, 1, 1).toordinal()
FIRST, LAST = (1 - EPOCH) * DAY, (date(9999, 12, 31).toordinal() + 1 - EPOCH) * DAY - 1


def duration(text: str) -> Optional[Duration]:
    match = DURATION.fullmatch(text)
    if not match:
        return None
    sum_of_parts = 0
    for whole, places, unit in PART.findall(match[2]) if match[2] != "0" else []:
        part = int(whole or "0") * UNITS[unit] + int(places or "0") * UNITS[unit] // 10 ** len(places)
        sum_of_parts += part
        if part > MOST or sum_of_parts > MOST:
            return None
    if match[1] != "-" and sum_of_parts == MOST:
        return None
    return Duration(-sum_of_parts if match[1] == "-" else sum_of_parts)


def timestamp(text: str) -> Optional[Timestamp]:
    match = TIMESTAMP.fullmatch(text)
    if not match:
        return None
    year, month, day, hour, minute, second = map(int, match.groups()[:6])
    places, sign, hours, minutes = match.groups()[6:]
    try:
        days = date(year, month, day).toordinal() - EPOCH if year else None
    except ValueError:
        return None
    offset = 60 * int(hours or 0) + int(minutes or 0)
    if days is None or hour > 23 or max(minute, second, int(minutes or 0)) > 59 or int(hours or 0) > 23:
        return None
    seconds = 86_400 * days + 3_600 * hour + 60 * minute + second - (-60 if sign == "-" else 60) * offset
    found = seconds * SECOND + int(((places or "") + "000000000")[:9])
    return Timestamp(found) if FIRST <= found <= LAST else None


def lasting(nanoseconds: int) -> Any:
    """The duration of this length, or the error beyond 64 bits."""
    return Duration(nanoseconds) if LEAST <= nanoseconds <= GREATEST else ERROR


def at(nanoseconds: int) -> Any:
    """The timestamp at this time, or the error outside the years 1 to 9999."""
    return Timestamp(nanoseconds) if FIRST <= nanoseconds <= LAST else ERROR


def sum_of(left: Any, right: Any) -> Any:
    """A sum of which one part is a duration."""
    if isinstance(left, Duration) and isinstance(right, Duration):
        return lasting(left.nanoseconds + right.nanoseconds)
    if {type(left), type(right)} == {Duration, Timestamp}:
        return at(left.nanoseconds + right.nanoseconds)
    return ERROR


def difference_of(left: Any, right: Any) -> Any:
    if type(left) is type(right) and isinstance(left, (Duration, Timestamp)):
        return lasting(left.nanoseconds - right.nanoseconds)
    if isinstance(left, Timestamp) and isinstance(right, Duration):
        return at(left.nanoseconds - right.nanoseconds)
    return ERROR


def toward_zero(left: int, right: int) -> int:
    return left // right if left >= 0 else -(-left // right)


DURATION_PARTS = {
    "getHours": UNITS["h"], "getMinutes": UNITS["m"], "getSeconds": UNITS["s"], "getMilliseconds": UNITS["ms"],
}


def part_of_timestamp(moment: Timestamp, method: str) -> int:
    """What a method of a timestamp returns, in UTC."""
    days, rest = divmod(moment.nanoseconds, DAY)
    day = date.fromordinal(days + EPOCH)
    return {
        "getFullYear": day.year,
        "getMonth": day.month - 1,
        "getDate": day.day,
        "getDayOfMonth": day.day - 1,
        "getDayOfWeek": day.isoweekday() % 7,
        "getDayOfYear": day.toordinal() - date(day.year, 1, 1).toordinal(),
        "getHours": rest // UNITS["h"],
        "getMinutes": rest // UNITS["m"] % 60,
        "getSeconds": rest // SECOND % 60,
        "getMilliseconds": rest // UNITS["ms"] % 1_000,
    }[method]
