"""The pieces of an expression that gatekeeper refuses, as it answers for each piece."""

from dataclasses import dataclass, field
from typing import Any, Iterator, Optional

from . import hidden, operands
from .places import Refusals, cause_of
from .policies import Part, as_variable, bound
from .splitter import NotCut, Piece
from .wide_functions import LATER
from .wide_splitter import WidePiece, cut, namespace_of

# methods that only an optional value has, and those whose argument is one
OF_OPTIONALS = ("hasValue", "value", "orValue", "or", "optMap", "optFlatMap")
TAKES_OPTIONAL = ("or", "optFlatMap")
# methods and macros that make one
MAKES_OPTIONAL, OVER_OPTIONAL = ("or", "first", "last", "of", "none", "ofNonZeroValue"), ("optMap", "optFlatMap")
# the methods that there are, or are of any value: after a refused call such a method is asked too
KNOWN = {
    "size", "startsWith", "endsWith", "contains", "first", "last", "min", "max", "isSorted", "distinct", "reverse", "slice",
    *OF_OPTIONALS, *LATER,
}
# the refusal of a text that is too deep to be cut into pieces
TOO_DEEP = "W10"
# what stands for a piece that is refused, so that what is around it is asked
VALUE, OPTIONAL = "dyn(null)", "optional.of(dyn(null))"


@dataclass
class Found:
    """What is refused: the place of the carets, the name that the refusal gives, and the piece.

    `text` is the piece as its author wrote it, `around` the pieces that it is in, outermost first, and `frames` are the
    iteration names in scope.
    """

    cause: str
    begin: int
    end: int
    name: str = ""
    piece: Optional[Piece] = None
    around: tuple[Any, ...] = ()
    frames: list[Any] = field(default_factory=list)
    text: str = ""
    # of Y2 what the operands are
    operands: str = ""


def bound_to_optional(text: str, frames: list[Any]) -> str:
    """A text of an optional value, with each iteration name standing for any item."""
    for _, name, _ in reversed(frames):
        text = f"optional.of(dyn(null)).optFlatMap({name},\n{text}\n)"
    return text


class WideRefusals(Refusals):
    """The gatekeeper and a part; which of its pieces are refused with a cause."""

    def refuses_text(self, text: str, frames: list[Any]) -> bool:
        """Whether a text is refused so, be it of a value or of an optional one."""
        ways = (bound, bound_to_optional) if frames else (bound,)
        made = (as_variable(self.part.scope, way(text, frames)) for way in ways)
        told = (cause_of(hidden.refusal(self.program, policy)) == self.cause for policy in made)
        return all(told) if self.cause == "W4" else any(told)

    def parts(self, piece: Piece, frames: list[Any]) -> Iterator[Any]:
        """The parts of a piece with the frames in which they are; of a macro by a wrong name the range alone."""
        names = piece.name.split() if piece.kind == "macro" else []
        inner = [*frames, *(("", name, None) for name in names)]
        for place, part in enumerate(piece.parts):
            if not place and namespace_of(piece):
                continue
            if namespace_of(piece) == "cel":
                # `cel.bind` would declare a name
                return
            if place and names and self.refuses_text("null", inner):
                return
            yield part, inner if place else frames

    def path(self, piece: Piece, frames: list[Any]) -> tuple[Any, ...]:
        """The first of its parts that is refused, as deep as there is one, with those around it; and its frames."""
        for part, inner in self.parts(piece, frames):
            if self.refuses(part, inner):
                around, last = self.path(part, inner)
                return (piece, *around), last
        return (piece,), frames


def name_of(refusal: str) -> str:
    """The name that a refusal of an expression gives."""
    words = refusal.split()
    return words[4] if len(words) == 5 and words[0] == "K6" else ""


class Places:
    """The gatekeeper and a part of a policy: all its pieces that are refused."""

    def __init__(self, program: Any, part: Part):
        self.program = program
        self.part = part
        self.text = part.text
        # for each character of the text its place in the part's text, and one more for the end
        self.origins = list(range(len(part.text) + 1))

    def found(self) -> Iterator[Found]:
        """The refused pieces, from the first one on; of a text that is not read its first fault alone."""
        most = len(self.text)
        for _ in range(most):
            refusal = hidden.refusal(self.program, as_variable(self.part.scope, self.text))
            cause = cause_of(refusal)
            if not cause:
                return
            one = self.first(cause, refusal)
            yield one
            if one.piece is None or not self.replace(one):
                return

    def first(self, cause: str, refusal: str) -> Found:
        """The piece that is refused first."""
        if " at " in refusal:
            # the blanks around a text are not counted
            read = self.text.lstrip()
            before = read.encode()[: int(refusal.split()[-1])].decode(errors="ignore")
            return self.of_token(cause, len(self.text) - len(read) + len(before))
        if cause == TOO_DEEP:
            return self.made(cause, 0, len(self.text), "")
        try:
            whole = cut(self.text)
        except NotCut:
            return self.made(cause, 0, len(self.text), name_of(refusal))
        refusals = WideRefusals(self.program, Part("variable", 0, self.text, self.part.scope), cause)
        (*around, piece), frames = refusals.path(whole, [])
        own = hidden.refusal(self.program, as_variable(self.part.scope, bound(self.text[piece.begin : piece.end], frames)))
        # the whole may be refused first for another name, of what is around the piece
        name = name_of(own if cause_of(own) == cause else refusal)
        found = self.made(cause, *self.shown(piece, name), name)
        all_of_it = self.made(cause, piece.begin, piece.end, "")
        found.text = self.part.text[all_of_it.begin : all_of_it.end]
        found.piece, found.around, found.frames = piece, tuple(around), frames
        if cause == "Y2":
            found.operands = operands.told(refusals, self.text, piece, frames)
        return found

    def of_token(self, cause: str, begin: int) -> Found:
        """The fault of a token."""
        found = self.made(cause, begin, begin + 1, "")
        try:
            leaf = leaf_at(cut(self.text), begin)
        except NotCut:
            return found
        if cause in ("W1", "W2") and leaf is not None:
            found = self.made(cause, leaf.begin, leaf.end, "")
            found.piece = leaf
        return found

    def made(self, cause: str, begin: int, end: int, name: str) -> Found:
        """A fault at a place of the text as it is now, by its place in the part."""
        return Found(cause, self.origins[begin], max(self.origins[begin], self.origins[max(end, 1) - 1]) + 1, name)

    def takes(self, found: Found, text: str) -> bool:
        """Whether a text is accepted in the place of a refused piece."""
        refusals = WideRefusals(self.program, self.part, "")
        return refusals.refuses_text(text, found.frames)

    def shown(self, piece: Piece, name: str) -> tuple[int, int]:
        """Where carets stand: under the name of a method that is refused, else under the piece."""
        if piece.parts and name and piece.form == "method" and name == piece.name:
            begin = self.text.index(name, piece.parts[0].end)
            return begin, begin + len(name)
        return piece.begin, piece.end

    def replace(self, found: Found) -> bool:
        """Puts what is accepted in the place of a piece; whether it is another text than before."""
        assert found.piece is not None
        piece: Piece = found.piece
        around = found.around
        while around and around[-1].form == "method" and around[-1].parts[0] is piece and around[-1].name not in KNOWN:
            piece, around = around[-1], around[:-1]
        if around and piece.form == "call" and piece.name == "type" and around[-1].form in ("==", "!="):
            # the name of a type beside it is no fault of its own
            piece, around = around[-1], around[:-1]
        by = OPTIONAL if wants_optional(piece, around) else VALUE
        if self.text[piece.begin : piece.end] == by:
            return False
        at = self.origins[piece.begin]
        self.text = self.text[: piece.begin] + by + self.text[piece.end :]
        self.origins[piece.begin : piece.end] = [at] * len(by)
        return True


def leaf_at(piece: Piece, at: int) -> Optional[Piece]:
    """The leaf that begins at a place."""
    if piece.kind == "leaf" and piece.begin == at:
        return piece
    return next((found for part in piece.parts if (found := leaf_at(part, at))), None)


def wants_optional(piece: Piece, around: tuple[Any, ...]) -> bool:
    """Whether what is around a piece takes an optional value in its place; of a whole, whether it looks like one."""
    if not around:
        return piece.word == "?" or (piece.form == "method" and piece.name in MAKES_OPTIONAL) or piece.word in OVER_OPTIONAL
    outer = around[-1]
    is_first = outer.parts and outer.parts[0] is piece
    if isinstance(outer, WidePiece) and any(one is piece for one in outer.optional):
        return True
    word = outer.word if outer.kind == "macro" else outer.name if outer.form == "method" else ""
    if word:
        return word in OF_OPTIONALS if is_first else word in TAKES_OPTIONAL
    passes_on = outer.form in ("field", "index") and is_first or outer.kind == "ternary" and not is_first
    return passes_on and wants_optional(outer, around[:-1])
