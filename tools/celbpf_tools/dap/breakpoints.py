"""The breakpoints of a session: groups of slots, each replaced as a whole, of which the process keeps the union."""

from typing import Any, Callable, Iterable, Optional

from .child import Child, Refused
from .conditions import Condition

# what a stop at a breakpoint of a group is called
LINE = "breakpoint"
INSTRUCTION = "instruction breakpoint"
FUNCTION = "function breakpoint"
# of a move: it is never told
PASSING = "passing"

# a kind, and the name of what the group is of, as of a source
Group = tuple[str, str]


class Breakpoints:
    """The slots of each group, with the numbers of the breakpoints there."""

    def __init__(self) -> None:
        self.groups: dict[Group, dict[int, list[int]]] = {}
        # by the number of a breakpoint its condition
        self.conditions: dict[int, Condition] = {}

    def slots(self) -> set[int]:
        """All slots at which a run stops."""
        return {slot for group in self.groups.values() for slot in group}

    def replace(self, child: Child, group: Group, wanted: Iterable[tuple[int, tuple[Any, ...]]]) -> dict[int, str]:
        """Replaces a group by breakpoints, each a number and its slots; why some were not set, by their numbers."""
        before = self.slots()
        self.groups[group] = {}
        refused = {}
        for number, slots in wanted:
            try:
                for slot in slots:
                    if slot not in before and slot not in self.slots():
                        child.one(f"b {slot}")
                    self.groups[group].setdefault(slot, []).append(number)
            except Refused as why:
                refused[number] = str(why)
        for slot in before - self.slots():
            child.ask(f"d {slot}")
        return refused

    def has_passing(self, slot: int) -> bool:
        """Whether a move goes to a slot."""
        return any(kind == PASSING and slot in group for (kind, _), group in self.groups.items())

    def at(self, slot: int, words: Callable[[], dict[str, int]]) -> tuple[Optional[str], list[int]]:
        """The kind of a stop at a slot, `None` if no breakpoint is there whose condition holds of these words, and the numbers of
        the breakpoints.
        """
        kinds, numbers = [], []
        for (kind, _), group in self.groups.items():
            holding = [number for number in group.get(slot, ()) if self.holds(number, words)]
            if holding and kind != PASSING:
                kinds.append(kind)
                numbers += holding
        return (kinds[0] if kinds else None), sorted(numbers)

    def holds(self, number: int, words: Callable[[], dict[str, int]]) -> bool:
        """Whether a breakpoint has no condition, or one that holds."""
        condition = self.conditions.get(number)
        return condition is None or condition.holds(words())
