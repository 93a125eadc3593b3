"""The results of calls of functions and methods."""

from typing import Any

from ..evaluator import operations
from ..evaluator.values import ERROR, kind
from . import lists, patterns, quantities, texts, times, versions
from .calls import VERB, format_tested, qualified
from .clauses import Clauses
from .results import CIDR, IP, NONE, Duration, Quantity, Semver, Some, Timestamp, alike, is_optional, is_typed, kind_of
from .trees import Call, Method

ZEROS: list[Any] = [None, False, 0, "", [], {}]
MAKERS: dict[str, Any] = {
    "quantity": (quantities.quantity, Quantity), "duration": (times.duration, Duration),
    "timestamp": (times.timestamp, Timestamp), "semver": (versions.semver, Semver), "ip": (versions.ip, IP),
    "cidr": (versions.cidr, CIDR),
}
TESTS = {"isQuantity": "quantity", "isSemver": "semver", "isIP": "ip", "isCIDR": "cidr"}
FINDERS: dict[str, Any] = {
    "matches": patterns.matches, "find": patterns.found_first, "findAll": patterns.found_all,
}


class NotDecided(Exception):
    """A review that is not decided: a pattern from a document that is not taken."""


def or_error(value: Any) -> Any:
    """A value; the error where there is none."""
    return ERROR if value is None else value


class Calling:
    """The results of calls, over those of their parts."""

    clauses: Clauses

    def of(self, tree: Any, items: Any = None) -> Any:
        raise NotImplementedError

    def seen(self, clause: str, result: Any) -> Any:
        raise NotImplementedError

    def call(self, tree: Call, items: dict[str, Any]) -> Any:
        arguments = [self.of(one, items) for one in tree.arguments]
        result = self.function(tree, arguments)
        return self.seen(f"{tree.function}: {result is not ERROR}", result)

    def function(self, tree: Call, arguments: list[Any]) -> Any:
        name, first = tree.function, arguments[0]
        if name in MAKERS:
            return self.made(name, arguments)
        if name in TESTS:
            if any(one is ERROR for one in arguments) or kind_of(first) != "text":
                return ERROR
            found = self.made(TESTS[name], arguments)
            return ERROR if kind_of(arguments[-1]) not in ("text", "bool") else found is not ERROR
        if name == "sign":
            return (first.number > 0) - (first.number < 0) if isinstance(first, Quantity) else ERROR
        if is_typed(first) or is_optional(first):
            return ERROR
        if name == "string" and kind(first) == "bool":
            return self.seen("string of a bool", "true" if first else "false")
        if name in ("int", "bool"):
            read = texts.int_of if name == "int" else texts.bool_of
            return or_error(read(first)) if kind(first) == "text" else first if kind(first) == name else ERROR
        return operations.CALLS[name](first)

    def made(self, name: str, arguments: list[Any]) -> Any:
        """The typed value that a function makes of a text, or of one of its own kind."""
        make, made = MAKERS[name]
        first = arguments[0]
        if isinstance(first, made):
            return first
        if kind_of(first) != "text" or any(kind_of(one) != "bool" for one in arguments[1:]):
            return ERROR
        return or_error(make(*arguments))

    def method(self, tree: Method, items: dict[str, Any]) -> Any:
        tested, function = format_tested(tree), qualified(tree)
        if tested:
            text = self.of(tested[1], items)
            result = texts.breaks(tested[0], text) if kind_of(text) == "text" else ERROR
            return self.seen(f"format {tested[0]}: {result is not ERROR}", result)
        if function:
            result = self.qualified(function, [self.of(one, items) for one in tree.arguments])
            return self.seen(f"{function}: {result is not ERROR}", result)
        if tree.method == "format":
            return self.seen("format", self.formatted(tree, items))
        if tree.method in ("isInteger", "asInteger"):
            return self.held(tree, items)
        target = self.of(tree.target, items)
        if tree.method in ("orValue", "or"):
            return self.either(tree, target, items)
        if tree.method in ("hasValue", "value"):
            return self.of_optional(tree.method, target)
        arguments = [self.of(one, items) for one in tree.arguments]
        if target is ERROR or any(one is ERROR for one in arguments):
            return self.seen(f"{tree.method} of the error", ERROR)
        result = self.of_typed(tree, target, arguments) if is_typed(target) else self.of_plain(
            tree.method, target, arguments
        )
        word = type(target).__name__ if is_typed(target) else kind_of(target)
        return self.seen(f"{tree.method} of {word}: {result is not ERROR}", result)

    def qualified(self, name: str, arguments: list[Any]) -> Any:
        if name == "optional.none":
            return NONE
        if any(one is ERROR for one in arguments):
            return ERROR
        if name == "optional.of":
            return Some(arguments[0])
        if name == "optional.ofNonZeroValue":
            is_zero = any(alike(arguments[0], zero) for zero in ZEROS)
            return NONE if is_zero else Some(arguments[0])
        is_lists = all(kind_of(one) == "list" for one in arguments)
        return lists.SETS[name](*arguments) if is_lists else ERROR

    def either(self, tree: Method, target: Any, items: dict[str, Any]) -> Any:
        """`o.orValue(d)` or `o.or(p)`; d or p is evaluated if o is none, and only then."""
        if target is NONE:
            return self.seen(f"{tree.method} of none", self.of(tree.arguments[0], items))
        if not isinstance(target, Some):
            return self.seen(f"{tree.method} of error", ERROR)
        return self.seen(f"{tree.method} of some", target.value if tree.method == "orValue" else target)

    def of_optional(self, method: str, target: Any) -> Any:
        if not is_optional(target):
            return self.seen(f"{method} of error", ERROR)
        if method == "hasValue":
            return self.seen("hasValue", target is not NONE)
        if target is NONE:
            return self.seen("value of none", ERROR)
        return self.seen("value of some", target.value)

    def held(self, tree: Method, items: dict[str, Any]) -> Any:
        """Whether a quantity is held as an int, or as which, which depends on its text."""
        text = self.of(tree.target.arguments[0], items)
        if kind_of(text) != "text" or quantities.quantity(text) is None:
            return self.seen(f"{tree.method}: False", ERROR)
        found = quantities.integer_of(text)
        result = found is not None if tree.method == "isInteger" else or_error(found)
        return self.seen(f"{tree.method}: {found is not None}", result)

    def formatted(self, tree: Method, items: dict[str, Any]) -> Any:
        values = iter([self.of(one, items) for _, one in tree.arguments[0].items])
        wrong = False

        def shown(verb: Any) -> str:
            nonlocal wrong
            if verb[1] == "%":
                return "%"
            value = next(values)
            if value is None and verb[1] == "s":
                return "null"
            if kind_of(value) == "bool" and verb[1] == "s":
                return "true" if value else "false"
            wrong |= kind_of(value) not in (("int", "text") if verb[1] == "s" else ("int",))
            return str(value)

        text = VERB.sub(shown, tree.target.value)
        return ERROR if wrong else text

    def of_plain(self, method: str, target: Any, arguments: list[Any]) -> Any:
        """A method of a text or a list, or of what has no method."""
        if method in ("first", "last"):
            if kind_of(target) != "list":
                return ERROR
            return Some(target[0 if method == "first" else -1]) if target else NONE
        if method in operations.METHODS:
            return operations.METHODS[method](target, *arguments)
        if kind_of(target) == "list" and method in lists.METHODS:
            return lists.METHODS[method](target, *arguments) if self.fits_list(method, arguments) else ERROR
        if kind_of(target) != "text":
            return ERROR
        if method in FINDERS:
            return self.found(method, target, arguments)
        if method not in texts.METHODS:
            return ERROR
        function, wanted, least = texts.METHODS[method]
        fits = least <= len(arguments) <= len(wanted)
        fits = fits and all(kind_of(one) == kind for one, kind in zip(arguments, wanted))
        return or_error(function(target, *arguments)) if fits else ERROR

    def fits_list(self, method: str, arguments: list[Any]) -> bool:
        """Whether a list takes this number of arguments: `indexOf` of a text takes one more."""
        return not (method in ("indexOf", "lastIndexOf") and len(arguments) != 1)

    def found(self, method: str, target: str, arguments: list[Any]) -> Any:
        if [kind_of(one) for one in arguments] not in (["text"], ["text", "int"]):
            return ERROR
        try:
            return FINDERS[method](arguments[0], target, *arguments[1:])
        except patterns.BadPattern as why:
            raise NotDecided("N8") from why

    def of_typed(self, tree: Method, target: Any, arguments: list[Any]) -> Any:
        method = tree.method
        if isinstance(target, Quantity):
            return self.of_quantity(tree, target, arguments)
        if isinstance(target, Semver):
            if method in ("major", "minor", "patch"):
                return or_error(versions.number_of(target, method))
            return compared(method, target, arguments[0])
        if isinstance(target, Duration):
            return times.toward_zero(target.nanoseconds, times.DURATION_PARTS[method])
        if isinstance(target, Timestamp):
            return times.part_of_timestamp(target, method)
        if isinstance(target, IP):
            return versions.part_of_address(target, method)
        if method == "prefixLength":
            return int(target.canonical.rpartition("/")[2])
        one = versions.ip(arguments[0]) if kind_of(arguments[0]) == "text" else arguments[0]
        return versions.contains(target, one) if isinstance(one, IP) else ERROR

    def of_quantity(self, tree: Method, target: Quantity, arguments: list[Any]) -> Any:
        if tree.method in ("add", "sub"):
            one = arguments[0].number if isinstance(arguments[0], Quantity) else arguments[0]
            return Quantity(target.number + one if tree.method == "add" else target.number - one)
        return compared(tree.method, target, arguments[0])


def compared(method: str, left: Any, right: Any) -> Any:
    """A comparison of two typed values of one kind by a method."""
    if type(left) is not type(right):
        return ERROR
    if method == "compareTo":
        return (left > right) - (left < right)
    return left < right if method == "isLessThan" else left > right
