"""The methods of lists, and of sets: each takes lists of values and gives a value or the error."""

from typing import Any, Callable

from ..evaluator import operations
from ..evaluator.values import ERROR, equal, kind

# longer lists are not joined or summed
MOST_JOINED = 8


def is_least(values: list[Any], one: Any, sign: str) -> Any:
    """Whether no other value is before this one; the error where one cannot be compared."""
    return operations.every([(operations.BINARY[sign](one, other), None) for other in values])


def extreme(sign: str) -> Callable[..., Any]:
    """The first of the values that stand in this order to all."""

    def found(values: list[Any]) -> Any:
        kept = operations.kept([(is_least(values, one, sign), one) for one in values])
        return kept[0] if kept is not ERROR and kept else ERROR

    return found


def is_sorted(values: list[Any]) -> Any:
    pairs = zip(values, values[1:])
    return operations.every([(operations.BINARY["<="](left, right), None) for left, right in pairs])


def distinct(values: list[Any]) -> list[Any]:
    found: list[Any] = []
    for value in values:
        if not any(equal(value, one) for one in found):
            found.append(value)
    return found


def sliced(values: list[Any], begin: Any, end: Any) -> Any:
    if (kind(begin), kind(end)) != ("int", "int"):
        return ERROR
    return values[begin:end] if 0 <= begin <= end <= len(values) else ERROR


def places(values: list[Any], wanted: Any) -> list[Any]:
    return [place for place, value in enumerate(values) if equal(value, wanted)]


def index_of(values: list[Any], wanted: Any) -> int:
    return (places(values, wanted) or [-1])[0]


def last_index_of(values: list[Any], wanted: Any) -> int:
    return (places(values, wanted) or [-1])[-1]


def joined(values: list[Any], separator: Any) -> Any:
    if kind(separator) != "text" or len(values) > MOST_JOINED:
        return ERROR
    return separator.join(values) if all(kind(one) == "text" for one in values) else ERROR


def summed(values: list[Any]) -> Any:
    found: Any = 0
    for value in values:
        found = operations.BINARY["+"](found, value) if kind(value) == "int" else ERROR
    return found if len(values) <= MOST_JOINED else ERROR


METHODS: dict[str, Callable[..., Any]] = {
    "isSorted": is_sorted, "min": extreme("<="), "max": extreme(">="), "sum": summed, "distinct": distinct,
    "reverse": lambda values: values[::-1], "slice": sliced, "indexOf": index_of, "lastIndexOf": last_index_of,
    "join": joined,
}


def holds_all(values: list[Any], others: list[Any]) -> bool:
    return all(any(equal(one, other) for one in values) for other in others)


SETS: dict[str, Callable[..., Any]] = {
    "sets.contains": holds_all,
    "sets.intersects": lambda values, others: any(equal(one, other) for one in values for other in others),
    "sets.equivalent": lambda values, others: holds_all(values, others) and holds_all(others, values),
}
