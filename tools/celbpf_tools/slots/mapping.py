"""The map from slots to the parts of a policy and their sub-expressions."""

from dataclasses import dataclass
from typing import Any, Optional, Union

from ..asking.policies import Part
from ..asking.program import Program as Celbpf
from .layout import Program, program_of
from .lines import Use, slots_of
from .nodes import Node, NotRead


class NotMapped(Exception):
    """There is no map: the listing is not that of the policy, or an expression is not cut in pieces."""


@dataclass(frozen=True)
class Span:
    """Slots from `first` to `last` of one sub-expression, or of a part's or the program's own instructions.

    `role` is `expression`; `kept` for a field that is kept before its uses; `item` for the head of a macro's loop,
    which names the next item; else what the instructions are for: `jump over` and `memo` of a variable, `condition`,
    `result` of a validation, `text` of a message, and without a part `decided`, `outcome` and `exit`. The text of
    the sub-expression is `part.text[begin:end]`. `register` names its value in the slot after `last`; it is empty if
    there is no value. `depth` counts the spans around this one.
    """

    first: int
    last: int
    part: Optional[Part]
    role: str
    begin: int
    end: int
    register: str
    depth: int
    node: Optional[Node] = None

    @property
    def text(self) -> str:
        """The source text of the sub-expression; empty for a span without one."""
        return self.part.text[self.begin : self.end] if self.part and self.node else ""

    @property
    def title(self) -> str:
        """The part's name, as `validation 0`, or `the policy`."""
        return self.part.title if self.part else "the policy"

    def holds(self, slot: int) -> bool:
        return self.first <= slot <= self.last


class SlotMap:
    """The spans of a program: each before those in it, in the order of their first slots.

    `lines` has the line of each instruction by its slot; the second slot of a wide load has none.
    """

    def __init__(self, program: Program):
        self.size = program.size
        self.spans = spans_of(program)
        self.lines = dict(listed(program))
        self.innermost = [None] * self.size
        self.ending: dict[int, list[Span]] = {}
        for span in self.spans:
            if span.register:
                self.ending.setdefault(span.last + 1, []).append(span)
            for slot in range(span.first, span.last + 1):
                self.innermost[slot] = span

    def at(self, slot: int) -> Optional[Span]:
        """The innermost span of a slot; none outside the program."""
        return self.innermost[slot] if 0 <= slot < self.size else None

    def around(self, slot: int) -> list[Any]:
        """All spans of a slot, the outermost first."""
        return [span for span in self.spans if span.holds(slot)]

    def of_part(self, kind: str, place: int) -> list[Any]:
        """The spans of a part, as of `validation` 0."""
        return [span for span in self.spans if span.part and (span.part.kind, span.part.place) == (kind, place)]

    def whole(self, kind: str, place: int) -> Optional[Span]:
        """The span of a part's whole expression; none if there is no such part."""
        return next((span for span in self.of_part(kind, place) if span.role == "expression"), None)

    def valued(self, slot: int) -> list[Any]:
        """The spans whose value a register names in this slot, if the step before was in them."""
        return self.ending.get(slot, [])


def spans_of(program: Program) -> list[Any]:
    """The spans of a program's marks."""
    found: list[Any] = []
    for placed in program.marks:
        mark, node = placed.mark, placed.mark.node
        begin, end = (node.begin, node.end) if node else (0, 0)
        depth = sum(1 for span in found if span.first <= mark.first and mark.last <= span.last)
        found.append(Span(mark.first, mark.last, placed.part, mark.role, begin, end, mark.register, depth, node))
    return found


def listed(program: Program) -> list[Any]:
    """The lines of a program with their slots."""
    found, slot = [], 0
    for line in program.lines:
        found.append((slot, line.line(slot) if isinstance(line, Use) else line))
        slot += slots_of(line)
    return found


def map_of(policy: dict[str, Any], listing: str) -> SlotMap:
    """The map of a policy's program, which this is the listing of."""
    try:
        made = SlotMap(program_of(policy))
    except (NotRead, KeyError, ValueError) as why:
        raise NotMapped("an expression is not cut in pieces") from why
    if listing.splitlines() != list(made.lines.values()):
        raise NotMapped("the listing is not that of the policy")
    return made


def parts_of(policy: Union[dict[str, Any], str], program: Celbpf) -> SlotMap:
    """The map of the program that a policy, or the file of one, is compiled to."""
    listing = program.run("list", program.compiled(policy)).stdout
    return map_of(program.document(policy), listing)
