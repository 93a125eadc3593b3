"""The results of wide expressions: values of the profile, the error, optionals, and typed values.

Typed values have an order (`<`) within their kind, and are equal if neither is less; addresses have none.
"""

from dataclasses import dataclass
from fractions import Fraction
from typing import Any

from ..evaluator.values import ERROR, equal, kind


@dataclass(frozen=True)
class Some:
    """An optional that has a value, which may be typed."""

    value: Any


class Nothing:
    """The optional without a value."""

    def __repr__(self) -> str:
        return "none"


NONE = Nothing()


@dataclass(frozen=True, order=True)
class Quantity:
    """An exact number."""

    number: Fraction


@dataclass(frozen=True, order=True)
class Duration:
    nanoseconds: int


@dataclass(frozen=True, order=True)
class Timestamp:
    """Nanoseconds since 1970, in UTC."""

    nanoseconds: int


@dataclass(frozen=True, order=True)
class Semver:
    """The three numbers, and what orders the pre-release after them."""

    numbers: tuple[Any, ...]
    release: tuple[Any, ...]


@dataclass(frozen=True)
class IP:
    canonical: str


@dataclass(frozen=True)
class CIDR:
    canonical: str


TYPED = (Quantity, Duration, Timestamp, Semver, IP, CIDR)


def is_typed(result: Any) -> bool:
    return isinstance(result, TYPED)


def is_optional(result: Any) -> bool:
    return isinstance(result, (Some, Nothing))


def alike(left: Any, right: Any) -> Any:
    """Whether two results are equal; the error if either is."""
    if left is ERROR or right is ERROR:
        return ERROR
    if is_optional(left) and is_optional(right):
        if left is NONE or right is NONE:
            return left is right
        return alike(left.value, right.value)
    if is_typed(left) or is_typed(right):
        return left == right if type(left) is type(right) else ERROR
    if is_optional(left) or is_optional(right):
        return ERROR
    return equal(left, right)


def kind_of(result: Any) -> str:
    """The word for a result's kind: that of a value, `optional` or `typed`."""
    if is_optional(result):
        return "optional"
    return "typed" if is_typed(result) else kind(result)


def kinds_of(*results: Any) -> tuple[Any, ...]:
    return tuple(kind_of(result) for result in results)
