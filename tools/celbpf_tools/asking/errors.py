"""The first piece of an expression that is the error, as the program answers for each piece."""

import json
import re
from typing import Any, Iterator

from .policies import OF_OPTIONAL
from .program import NotAnswered, Program
from .splitter import NotCut, Piece
from .values import ERROR, NONE, Values, is_some
from .wide_splitter import cut, is_over_optional, namespace_of

# the most items of a list that are asked one by one
MOST_ITEMS = 100
# which part of a conditional is evaluated after its condition
BRANCHES = {"true": 1, "false": 2}
# methods of optional values whose argument is evaluated if there is no value
INSTEAD = ("orValue", "or")
# the words of leaves that say their values themselves
LITERAL = re.compile(r"(true|false|null)$|[rRbB]*[\"']|-|\.?[0-9]")


class Asking:
    """The program, the variables in scope, and the text of an expression in pieces."""

    def __init__(self, program: Program, scope: list[Any], text: str):
        self.values = Values(program, scope)
        self.text = text
        # whether some part was not asked: one that the program refuses alone, or an item too far on
        self.is_open = False

    def of(self, piece: Piece) -> str:
        """The text of a piece."""
        return self.text[piece.begin : piece.end]

    def value(self, text: str, frames: list[Any]) -> str:
        """The value of a text, as `Values` has it."""
        return self.values.of(text, frames)

    def evaluated(self, piece: Piece, frames: list[Any]) -> Iterator[tuple[Any, ...]]:
        """The parts of a piece that are evaluated, in their order, with the frames in which they are."""
        if piece.kind == "ternary":
            yield piece.parts[0], frames
            chosen = BRANCHES.get(self.value(self.of(piece.parts[0]), frames))
            yield from [(piece.parts[chosen], frames)] if chosen else []
        elif piece.kind == "macro":
            yield piece.parts[0], frames
            yield from self.turns(piece, frames)
        elif piece.form == "method" and piece.name in INSTEAD and not namespace_of(piece):
            yield piece.parts[0], frames
            if self.value(self.of(piece.parts[0]), frames) == NONE:
                yield from ((part, frames) for part in piece.parts[1:])
        else:
            yield from ((part, frames) for part in piece.parts[bool(namespace_of(piece)) :])

    def number(self, piece: Piece, frames: list[Any]) -> int:
        """How many items a macro goes over; what is neither a list nor a map has none."""
        range_text = self.of(piece.parts[0])
        if is_over_optional(piece):
            return int(is_some(self.value(range_text, frames)))
        name = piece.name.split()[0]
        count = self.value(f"size(({range_text}).map({name}, {name}))", frames)
        return 0 if count == ERROR else int(count)

    def frame(self, piece: Piece, frames: list[Any], place: int) -> tuple[Any, ...]:
        """The frame of an item of a macro's range."""
        range_text = self.of(piece.parts[0])
        if is_over_optional(piece):
            return range_text, piece.name, OF_OPTIONAL
        if " " not in piece.name:
            return range_text, piece.name, place
        name = piece.name.split()[0]
        is_list = self.value(range_text, frames).startswith("[")
        key = place if is_list else literal(json.loads(self.value(f"({range_text}).map({name}, {name})[{place}]", frames)))
        return range_text, piece.name, key

    def turns(self, piece: Piece, frames: list[Any]) -> Iterator[tuple[Any, ...]]:
        """The parts of a macro after its range, for each item."""
        number = self.number(piece, frames)
        for place in range(min(number, MOST_ITEMS)):
            yield from self.turn(piece, [*frames, self.frame(piece, frames, place)])
        self.is_open = self.is_open or number > MOST_ITEMS

    def turn(self, piece: Piece, inner: list[Any]) -> Iterator[tuple[Any, ...]]:
        """The parts of a macro after its range, for the item of the last frame."""
        for part in piece.parts[1:]:
            yield part, inner
            # what is mapped is evaluated where the predicate is true alone
            if len(piece.parts) == 3 and self.value(self.of(part), inner) != "true":
                return

    def first(self, piece: Piece, frames: list[Any]) -> tuple[Any, ...]:
        """The first piece that is the error and has no part that is, in a piece that is the error."""
        try:
            for part, inner in self.evaluated(piece, frames):
                if self.value(self.of(part), inner) == ERROR:
                    return self.first(part, inner)
        except NotAnswered:
            # a piece that the program refuses to be asked for leaves the one around it
            self.is_open = True
        return piece, frames

    def known(self, piece: Piece, frames: list[Any]) -> Iterator[tuple[Any, ...]]:
        """The evaluated parts of a piece that are no literals, with their values; of a macro the range alone."""
        try:
            for part, inner in self.evaluated(piece, frames):
                if not LITERAL.match(part.word):
                    yield self.of(part), self.value(self.of(part), inner)
                if piece.kind == "macro":
                    return
        except NotAnswered:
            return


def literal(text: str) -> str:
    """The literal of a text."""
    escaped = text.replace("\\", "\\\\").replace("'", "\\'").replace("\n", "\\n").replace("\r", "\\r")
    return f"'{escaped}'"


def told_frame(asked: Asking, frames: list[Any]) -> Iterator[str]:
    """What the names of the last of these frames stand for."""
    range_text, names, place = frames[-1]
    *keys, name = names.split()
    value = asked.value(name, frames)
    if place == OF_OPTIONAL:
        yield f"where {name} is the value of {range_text}: {value}"
    elif keys:
        yield f"where {keys[0]} is {asked.value(keys[0], frames)} of {range_text}, and {name} is {value}"
    else:
        yield f"where {name} is item {place} of {range_text}: {value}"


def first_error(program: Program, scope: list[Any], text: str) -> list[Any]:
    """Lines that say where an expression that is the error is it first."""
    try:
        whole = cut(text)
    except NotCut:
        return ["the text is not cut in pieces: the error is somewhere in it"]
    asked = Asking(program, scope, text)
    piece, frames = asked.first(whole, [])
    if piece is whole:
        lines = ["not every part of it was asked" if asked.is_open else "no part of it is the error"]
    else:
        lines = [f"the first error is {'in ' if asked.is_open else ''}{asked.of(piece)}"]
    for depth in range(len(frames)):
        lines += told_frame(asked, frames[: depth + 1])
    told = [name for _, names, _ in frames for name in names.split()]
    return lines + [f"where {part} is {value}" for part, value in asked.known(piece, frames) if part not in told]
