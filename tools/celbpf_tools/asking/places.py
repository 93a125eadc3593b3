"""The smallest piece of an expression that is refused, as the program answers for each piece."""

from typing import Any, Iterator

from .policies import Part, as_variable, asking, bound
from .program import Program
from .splitter import NotCut, Piece, cut

# the most arguments that a function is asked for
MOST_ARGUMENTS = 3


def cause_of(refusal: str) -> str:
    """The number of a refusal behind its part, as Y2; empty where nothing is refused."""
    words = refusal.split()
    return words[3] if words[:1] == ["K6"] else " ".join(words[:1])


class Refusals:
    """The program and a part; which of its pieces are refused with the part's cause."""

    def __init__(self, program: Program, part: Part, cause: str):
        self.program = program
        self.part = part
        self.cause = cause

    def refuses_text(self, text: str, frames: list[Any]) -> bool:
        # only a variable can be nested too deep
        made = as_variable if self.cause == "G2" else asking
        return cause_of(self.program.refusal(made(self.part.scope, bound(text, frames)))) == self.cause

    def refuses(self, piece: Piece, frames: list[Any]) -> bool:
        return self.refuses_text(self.part.text[piece.begin : piece.end], frames)

    def parts(self, piece: Piece, frames: list[Any]) -> Iterator[Any]:
        """The parts of a piece with the frames in which they are; of a macro by a wrong name the range alone."""
        inner = [*frames, ("", piece.name, None)] if piece.kind == "macro" else frames
        for place, part in enumerate(piece.parts):
            if place and inner != frames and self.refuses_text("null", inner):
                return
            yield part, inner if place else frames

    def smallest(self, piece: Piece, frames: list[Any]) -> tuple[Piece, list[Any]]:
        """The first of its parts that is refused, as deep as there is one, else the piece; and the frames in which it is."""
        for part, inner in self.parts(piece, frames):
            if self.refuses(part, inner):
                return self.smallest(part, inner)
        return piece, frames


def smallest(refusals: Refusals) -> tuple[Piece, list[Any]]:
    """The smallest piece of a part that is refused, with the frames in which it is, or all of the part."""
    whole = Piece(0, len(refusals.part.text))
    try:
        piece = cut(refusals.part.text)
    except NotCut:
        return whole, []
    return refusals.smallest(piece, []) if refusals.refuses(piece, []) else (whole, [])


def called(name: str, count: int, is_method: bool) -> str:
    """A call with so many arguments, each of no known type; a method's target is one of them."""
    given = ["dyn(object)"] * count
    return f"{given[0]}.{name}({', '.join(given[1:])})" if is_method else f"{name}({', '.join(given)})"


def of_function(program: Program, piece: Piece) -> str:
    """What is wrong with the function of a call that is refused; empty if it is there, with as many arguments."""
    if piece.form not in ("method", "call"):
        return ""
    is_method = piece.form == "method"

    def is_there(count: int) -> bool:
        return cause_of(program.refusal(asking([], called(piece.name, count, is_method)))) != "Y2"

    if is_there(len(piece.parts)):
        return ""
    least = 1 if is_method else 0
    counts = [str(count - least) for count in range(least, MOST_ARGUMENTS + 2) if is_there(count)]
    if not counts:
        return f"there is no function `{piece.name}`"
    takes = f"{' or '.join(counts)} argument{'' if counts == ['1'] else 's'}"
    return f"the function `{piece.name}` takes {takes}, and not {len(piece.parts) - least}"
