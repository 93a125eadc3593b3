"""The parts of a policy: to which of them a slot belongs, where each begins, and which values a place has."""

from typing import Any, Optional

from ..asking import policies
from ..slots.mapping import NotMapped, SlotMap, Span, map_of
from ..slots.nodes import is_same

# the most characters of a sub-expression beside a slot
SHOWN = 60


def on_one_line(text: str) -> str:
    """A text without line ends, of a long one the beginning."""
    text = " ".join(text.split())
    return text if len(text) <= SHOWN else f"{text[: SHOWN - 2]}.."


class Parts:
    """Parts by their titles, as `validation 0`; without a map, as of an image alone, there are none.

    `texts` has the texts of parts as their author wrote them, to be shown for parts that are translated.
    """

    def __init__(self, found: Optional[SlotMap] = None, texts: Optional[dict[Any, Any]] = None):
        self.map = found
        self.texts = texts or {}

    def __bool__(self) -> bool:
        return self.map is not None

    def span(self, slot: int) -> Optional[Span]:
        """The innermost span of a slot."""
        return self.map.at(slot) if self.map else None

    def part_at(self, slot: int) -> Optional[str]:
        """The title of the part that a slot belongs to."""
        span = self.span(slot)
        return span.title if span else None

    def piece_at(self, slot: int) -> Optional[str]:
        """What names the innermost sub-expression of a slot, or the instructions that are of none."""
        span = self.span(slot)
        return f"{span.title} {span.first} {span.last} {span.depth}" if span else None

    def name_at(self, slot: int) -> str:
        """What a reader calls a slot: the part, with the sub-expression or what the instruction is for."""
        span = self.span(slot)
        if not span:
            return f"slot {slot}"
        return f"{span.title}: {on_one_line(self.text_of(span)) or span.role}"

    def text_of(self, span: Span) -> str:
        """The text of a sub-expression; of a part that is translated, the part as its author wrote it."""
        part = span.part
        written = self.texts.get((part.kind, part.place), "") if part and span.text else ""
        return written if part and written and not is_same(written, part.text) else span.text

    def slots_of(self, name: str) -> tuple[int, ...]:
        """The first slots of a part's expression: `validation 0`, `message 0`, or the name of a variable or condition."""
        for span in self.map.spans if self.map else []:
            if span.part and span.role == "expression" and name in names_of(span):
                return (span.first,)
        return ()

    def valued(self, slot: int) -> list[Span]:
        """The sub-expressions whose value a register names at a slot, if the step before was in them."""
        return self.map.valued(slot) if self.map else []


def names_of(span: Span) -> tuple[str, ...]:
    """What the part of a span is called."""
    part = span.part
    if part is None:
        return ()
    named = (part.name, f"variables.{part.name}" if part.kind == "variable" else part.name) if part.name else ()
    return (f"{part.kind} {part.place}", part.title, *named)


def texts_of(policy: dict[Any, Any]) -> dict[Any, Any]:
    """The texts of the parts of a policy, by their kinds and places."""
    return {(part.kind, part.place): part.text for part in policies.evaluated(policy)}


def parts_of(policy: dict[Any, Any], listing: str, texts: dict[Any, Any]) -> Parts:
    """The parts of a policy whose program has this listing; none if there is no map."""
    try:
        return Parts(map_of(policy, listing), texts)
    except NotMapped:
        return Parts()
