"""The condition of a breakpoint: a word compared with a number, such as `r1 == 5` or `step >= 100`."""

import operator
import re
from dataclasses import dataclass
from typing import Callable

from .arguments import Arguments, BadRequest

CONDITION = re.compile(r"(r(?:10|[0-9])|pc|step) ?(==|!=|<=|>=|<|>) ?(-?(?:0x[0-9a-fA-F]{1,16}|0|[1-9][0-9]{0,19}))")
COMPARED: dict[str, Callable[[int, int], bool]] = {
    "==": operator.eq, "!=": operator.ne, "<": operator.lt, "<=": operator.le, ">": operator.gt, ">=": operator.ge,
}
WORDS = 1 << 64
TAKES = "a condition compares a register, `pc` or `step` with a number, as `r1 == 5`, without a sign"
# what clients may ask for beside a condition
OTHERS = {"hitCondition": "hits are not counted", "logMessage": "no messages are logged"}


@dataclass(frozen=True)
class Condition:
    """A name, how it is compared, and the number, all without a sign."""

    name: str
    compared: str
    number: int

    def holds(self, words: dict[str, int]) -> bool:
        """Whether it holds of the words at a place."""
        return COMPARED[self.compared](words[self.name], self.number)


def condition_of(given: Arguments) -> tuple[Condition, ...]:
    """The condition of a breakpoint that a client asks for, if it has one; another one is a `BadRequest`."""
    for key, why in OTHERS.items():
        if given.text(key):
            raise BadRequest(f"{key}: {why}")
    text = " ".join((given.text("condition") or "").split())
    if not text:
        return ()
    found = CONDITION.fullmatch(text)
    if not found:
        raise BadRequest(f"{text}: {TAKES}")
    return (Condition(found[1], found[2], int(found[3], 0) % WORDS),)
