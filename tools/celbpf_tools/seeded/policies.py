"""The specifications of policies."""

from typing import Any

from .expressions import KINDS, Expressions
from .texts import TEXTS

REASONS = ["Unauthorized", "Forbidden", "Invalid", "RequestEntityTooLarge"]
VARIABLE_NAMES = ["v", "w", "limit", "object", "has", "names", "all", "r"]
# what makes a text one that is refused, mostly
SPOILS = [
    ("object", "thing"), (".", "#"), (")", ""), ("(", "(("), ("object.", "variables."), ("'", ""),
    ("has(", "has(1, "), ("has(object.", "has("), ("(x, ", "(object, "), ("(c, ", "(1, "), ("true", "while"),
    (" ", " @ "), ("0", "99999999999999999999"), ("==", "="), ("&&", "&"), ("'", "'\\q"), ("+", "+ +"),
    (")", ",)"), ("size(", "length("), ("[", "[[,"), ("object", "variables"), ("!", "!-"),
]


def spoiled(numbers: Any, text: str) -> str:
    """A text with one thing wrong."""
    old, new = numbers.pick(SPOILS)
    return text.replace(old, new, 1)


class Specifications:
    """Makes specifications whose expressions mostly keep to these roots."""

    def __init__(self, numbers: Any, roots: list[Any]):
        self.numbers = numbers
        self.roots = roots
        # the variables so far, and the kind of each
        self.kinds: dict[str, str] = {}

    def expression(self, kind: str, room: int, variables: dict[str, Any]) -> str:
        """The text of an expression, which now and then is spoiled."""
        made = Expressions(self.numbers, variables, self.roots).text(kind, room)
        return spoiled(self.numbers, made) if self.numbers.one_in(60) else made

    def variables(self) -> list[Any]:
        numbers, made = self.numbers, []
        for name in numbers.some(VARIABLE_NAMES, 4):
            kind = numbers.pick(KINDS)
            made.append({"name": name, "expression": self.expression(kind, numbers.below(4), self.kinds)})
            self.kinds[name] = kind
        return made

    def conditions(self) -> list[Any]:
        """Conditions, most of which are true."""
        numbers, made = self.numbers, []
        for place in range(numbers.pick([0, 0, 0, 1, 2])):
            text = numbers.pick(["true", "request.uid != 'a'", "has(object.spec)", "", "", ""])
            text = text or self.expression("bool", 2, {})
            made.append({"name": f"{numbers.pick(['when', 'é', 'a b'])}{place}", "expression": text})
        return made

    def validation(self) -> dict[str, Any]:
        numbers = self.numbers
        made = {"expression": self.expression("bool", 1 + numbers.below(5), self.kinds)}
        if numbers.one_in(3):
            made["message"] = numbers.pick([one for one in TEXTS if "\n" not in one])
        if numbers.one_in(2):
            made["messageExpression"] = self.expression("text", numbers.below(4), self.kinds)
        if numbers.one_in(3):
            made["reason"] = numbers.pick(REASONS)
        return made

    def specification(self) -> dict[str, Any]:
        numbers, spec = self.numbers, {}
        if numbers.one_in(2):
            spec["failurePolicy"] = numbers.pick(["Fail", "Ignore", "Ignore"])
        variables, conditions = self.variables(), self.conditions()
        if variables:
            spec["variables"] = variables
        if conditions:
            spec["matchConditions"] = conditions
        spec["validations"] = [self.validation() for _ in range(1 + numbers.below(3))]
        return spec


def spec_of(numbers: Any, roots: list[Any]) -> dict[str, Any]:
    """The specification of a policy whose expressions mostly keep to these roots."""
    return Specifications(numbers, roots).specification()
