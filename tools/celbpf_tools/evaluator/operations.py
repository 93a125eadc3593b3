"""What operators, functions, methods and macros make of values."""

from typing import Any

from .values import ERROR, equal, in_range, kind, kinds


def conjunction(left: Any, right: Any) -> Any:
    """False if either is, even beside the error."""
    if left is False or right is False:
        return False
    return True if left is True and right is True else ERROR


def disjunction(left: Any, right: Any) -> Any:
    """True if either is, even beside the error."""
    if left is True or right is True:
        return True
    return False if left is False and right is False else ERROR


def negation(value: Any) -> Any:
    return not value if kind(value) == "bool" else ERROR


def minus(value: int) -> Any:
    return in_range(-value) if kind(value) == "int" else ERROR


def over(kind_of_both: Any, function: Any) -> Any:
    """A function of two values of this kind."""
    wanted = (kind_of_both, kind_of_both)
    return lambda left, right: function(left, right) if kinds(left, right) == wanted else ERROR


def quotient(left: int, right: int) -> int:
    """Rounded toward zero."""
    magnitude = abs(left) // abs(right)
    return magnitude if (left < 0) == (right < 0) else -magnitude


def divide(left: Any, right: int) -> Any:
    if kinds(left, right) != ("int", "int") or right == 0:
        return ERROR
    return in_range(quotient(left, right))


def remainder(left: int, right: int) -> Any:
    """What is left of a division; the error where the quotient does not fit."""
    if divide(left, right) is ERROR:
        return ERROR
    return left - right * quotient(left, right)


def add(left: Any, right: Any) -> Any:
    if kinds(left, right) == ("int", "int"):
        return in_range(left + right)
    if kinds(left, right) in (("text", "text"), ("list", "list")):
        return left + right
    return ERROR


def equality(wanted: Any) -> Any:
    """Whether two values are equal, or unequal."""
    return lambda left, right: ERROR if ERROR in (left, right) else equal(left, right) == wanted


def ordering(function: Any) -> Any:
    """A comparison of two ints, texts by code points, or bools."""

    def compare(left: Any, right: Any) -> Any:
        if kind(left) != kind(right) or kind(left) not in ("int", "text", "bool"):
            return ERROR
        return function(left, right)

    return compare


def member(item: Any, container: Any) -> Any:
    """Whether a list has an equal item, or a map the text as a key."""
    if kind(container) == "list" and item is not ERROR:
        return any(equal(item, one) for one in container)
    if kinds(item, container) == ("text", "map"):
        return item in container
    return ERROR


def index(operand: Any, key: Any) -> Any:
    if kinds(operand, key) == ("list", "int"):
        return operand[key] if 0 <= key < len(operand) else ERROR
    if kinds(operand, key) == ("map", "text"):
        return operand.get(key, ERROR)
    return ERROR


def select(operand: Any, field: str) -> Any:
    return operand.get(field, ERROR) if kind(operand) == "map" else ERROR


def has(operand: Any, field: str) -> Any:
    return field in operand if kind(operand) == "map" else ERROR


def count(value: Any) -> Any:
    """Code points, items or entries."""
    return len(value) if kind(value) in ("text", "list", "map") else ERROR


def string(value: Any) -> Any:
    if kind(value) == "int":
        return str(value)
    return value if kind(value) == "text" else ERROR


UNARY = {"!": negation, "-": minus}
BINARY = {
    "&&": conjunction,
    "||": disjunction,
    "+": add,
    "-": over("int", lambda left, right: in_range(left - right)),
    "*": over("int", lambda left, right: in_range(left * right)),
    "/": divide,
    "%": remainder,
    "==": equality(True),
    "!=": equality(False),
    "<": ordering(lambda left, right: left < right),
    "<=": ordering(lambda left, right: left <= right),
    ">": ordering(lambda left, right: left > right),
    ">=": ordering(lambda left, right: left >= right),
    "in": member,
    "[]": index,
}
CALLS: dict[str, Any] = {"size": count, "string": string, "dyn": lambda value: value}
METHODS = {
    "size": count,
    "startsWith": over("text", str.startswith),
    "endsWith": over("text", str.endswith),
    "contains": over("text", lambda text, part: part in text),
}


def every(turns: list[Any]) -> Any:
    """False if any is, even beside the error; true over none."""
    truths = [truth for truth, _ in turns]
    if any(truth is False for truth in truths):
        return False
    return True if all(truth is True for truth in truths) else ERROR


def some(turns: list[Any]) -> Any:
    """True if any is, even beside the error; false over none."""
    truths = [truth for truth, _ in turns]
    if any(truth is True for truth in truths):
        return True
    return False if all(truth is False for truth in truths) else ERROR


def exactly_one(turns: Any) -> Any:
    truths = [truth for truth, _ in turns]
    if any(kind(truth) != "bool" for truth in truths):
        return ERROR
    return truths.count(True) == 1


def kept(turns: list[Any]) -> Any:
    """What is kept of the items whose predicate is true; the error if any part is, or is no bool."""
    if any(kind(truth) != "bool" for truth, _ in turns):
        return ERROR
    values = [value for truth, value in turns if truth]
    return ERROR if ERROR in values else values


MACROS = {"all": every, "exists": some, "exists_one": exactly_one, "map": kept, "filter": kept}
