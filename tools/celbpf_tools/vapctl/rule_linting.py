"""What `lint` shows of kinds that are misspelt, and of what policies and bindings have beside expressions."""

from collections.abc import Iterator
from typing import Optional

from ..asking.refused import Refused
from .cluster import ADMISSION
from .inputs import Thing
from .linting import Fault
from .positions import Marks
from .rules import CODES, position_of, refusals
from .stored_fields import field_refusals


class KindFault(Fault):
    """A policy or a binding whose kind is misspelt."""

    @property
    def meaning(self) -> str:
        return self.refused.meaning


def kind_fault(thing: Thing, meant: str, marks: Optional[Marks]) -> Fault:
    """The refusal of a kind that there is not."""
    told = f"{ADMISSION} has no {thing.kind}: did you mean {meant}?"
    return KindFault(thing, "K2", Refused(told, key="kind"), position_of(thing, ("kind",), marks))


def rule_faults(thing: Thing, marks: Optional[Marks]) -> Iterator[Fault]:
    """The refusals of what a policy or a binding has beside expressions: its rules, selectors, kinds and actions."""
    for one in (*refusals(thing), *field_refusals(thing)):
        yield Fault(thing, CODES[thing.kind], Refused(one.meaning, key=one.key), position_of(thing, one.path, marks))
