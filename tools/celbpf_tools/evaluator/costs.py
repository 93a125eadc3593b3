"""What evaluation costs: the nodes that are visited, and what they spend."""

from typing import Any

from .values import depth, length, size

MOST_CHARGE = 16_777_216
STEPS_A_VISIT = 128
CHARGE_A_UNIT = 16
TOO_DEEP = 255


class Costs:
    """What has been visited so far."""

    def __init__(self) -> None:
        self.work = 0
        self.sizes = 0
        self.deep = False

    def turn(self, count: int = 1) -> None:
        """Counts what is not a node: a part of a policy, or an item that a macro goes over."""
        self.work += count

    def visit(self, result: Any) -> None:
        """Counts a node with this result."""
        self.work += 1
        self.sizes += size(result)

    def text(self, text: str) -> None:
        """Counts a text literal or a field name."""
        self.sizes += 1 + length(text)

    def keep(self, value: Any) -> None:
        """Looks at what becomes an item of a list or a value of a map."""
        self.deep = self.deep or depth(value) >= TOO_DEEP

    @property
    def spent(self) -> int:
        """Eight for each visit, the size of each result, and the texts."""
        return 8 * self.work + self.sizes

    @property
    def steps(self) -> int:
        """After how many steps the program has stopped."""
        return STEPS_A_VISIT * self.work

    def most_charged(self, charge: int) -> int:
        """What a program has charged at most, where the roots are charged this."""
        return charge + CHARGE_A_UNIT * self.spent

    def is_within(self, charge: int) -> bool:
        """Whether no program is stopped for its charge or for depth, where the roots are charged this."""
        return self.most_charged(charge) <= MOST_CHARGE and not self.deep
