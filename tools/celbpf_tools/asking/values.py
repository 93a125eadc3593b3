"""Values of expressions, as a program answers: JSON, `error`, or for an optional value a text of CEL."""

from typing import Any

from .places import cause_of
from .policies import asking, bound
from .program import NotAnswered, Program

ERROR = "error"
NONE, SOME = "optional.none()", "optional.of("
# the refusal of a value that is an optional one, and that of a form, which hides it if a table of indices is needed
OPTIONAL, FORM = "W4", "W5"


def may_be_optional(refusal: str) -> bool:
    """Whether a value of which this is the refusal may be an optional one."""
    return cause_of(refusal) == OPTIONAL or refusal.endswith(f" {FORM}")


def is_some(value: str) -> bool:
    """Whether a value is an optional one that has a value."""
    return value.startswith(SOME)


class Values:
    """The program, the variables in scope, and what was asked."""

    def __init__(self, program: Program, scope: list[Any]):
        self.program = program
        self.scope = scope
        self.answers: dict[str, Any] = {}

    def of(self, text: str, frames: list[Any]) -> str:
        """The value of a text, in which the names of these frames stand for their items."""
        asked = bound(text, frames)
        if asked not in self.answers:
            self.answers[asked] = self.found(text, frames)
        return self.answers[asked]

    def found(self, text: str, frames: list[Any]) -> str:
        """The answer, of an optional value as the list with it that a literal makes."""
        try:
            return self.program.value(asking(self.scope, bound(text, frames)))
        except NotAnswered as why:
            if not may_be_optional(why.line):
                raise
        listed = self.program.value(asking(self.scope, bound(f"[?(\n{text}\n)]", frames)))
        if listed == ERROR:
            return ERROR
        return NONE if listed == "[]" else f"{SOME}{listed[1:-1]})"
