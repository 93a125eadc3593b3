"""Numbers from a seed, the same on every machine and with every Python."""

from typing import Any

MASK = 2**64 - 1


class Numbers:
    """A stream of numbers (splitmix64)."""

    def __init__(self, seed: int):
        self.state = seed & MASK

    def next(self) -> int:
        """A number of 64 bits."""
        self.state = (self.state + 0x9E3779B97F4A7C15) & MASK
        mixed = self.state
        mixed = (mixed ^ (mixed >> 30)) * 0xBF58476D1CE4E5B9 & MASK
        mixed = (mixed ^ (mixed >> 27)) * 0x94D049BB133111EB & MASK
        return mixed ^ (mixed >> 31)

    def below(self, bound: int) -> int:
        """A number below a bound."""
        return self.next() % bound

    def one_in(self, count: int) -> bool:
        """True once in this many times."""
        return self.below(count) == 0

    def pick(self, values: Any) -> Any:
        """One of a list."""
        return values[self.below(len(values))]

    def some(self, values: list[Any], most: int) -> list[Any]:
        """At most so many of a list, in its order."""
        wanted = self.below(most + 1)
        picked = set()
        for _ in range(wanted):
            picked.add(self.below(len(values)))
        return [values[place] for place in sorted(picked)]
