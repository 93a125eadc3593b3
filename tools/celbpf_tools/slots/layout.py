"""The code of a whole policy: its variables' routines, conditions, validations with their messages, and the outcome."""

from dataclasses import dataclass, field
from typing import Any, Optional

from ..asking.policies import Part, parts
from .expressions import Emitter, Texts
from .lines import SCRATCH, VERDICT, Mark, Piece, code, ja, jump, lddw, load_at, mov, moved, store_at
from .nodes import read
from .tails import NO, TEXT_KIND, YES

SKIPPED, REJECTED, DENIED, ADMITTED = 1, 2, 3, 4
FAILS, ERRS = 1, 2
# the words of the verdict region with the texts of messages
FIRST_MESSAGE = 66


@dataclass(frozen=True)
class Placed:
    """A mark at its slots of the program, of this part; of none if it belongs to the policy as a whole."""

    mark: Mark
    part: Optional[Part]


@dataclass
class Program:
    """The code of a policy so far: its lines, how many slots they take, and the marks in them."""

    lines: list[Any] = field(default_factory=list)
    marks: list[Any] = field(default_factory=list)
    size: int = 0
    texts: Texts = field(default_factory=Texts)
    routines: dict[str, Any] = field(default_factory=dict)

    def put(self, part: Optional[Part], piece: Piece) -> None:
        """Adds a piece at the end of the code."""
        self.lines += piece.lines
        self.marks += [Placed(mark, part) for mark in moved(piece.marks, self.size)]
        self.size += piece.size

    def put_own(self, part: Optional[Part], role: str, piece: Piece) -> None:
        """Puts instructions that are of no expression, but of the part itself."""
        self.put(part, piece.marked(None, "", role))

    def expression(self, part: Part) -> Piece:
        """The code of a part's expression, whose texts are added."""
        node = read(part.text)
        self.texts.take(node)
        return Emitter(self.texts, self.routines).whole(node)


def verdict(word: int) -> str:
    """The address of a word of the verdict region into R1."""
    return lddw("r1", VERDICT + 8 * word)


def condition_tail(ignores: bool) -> Piece:
    """True goes on, false ends the program, and an error leaves the outcome that it has if no condition is false."""
    false = [mov("r0", SKIPPED), store_at("r1", 0, "r0"), "exit"]
    undecided = [jump("eq", "r0", YES, 8), mov("r2", SKIPPED if ignores else REJECTED)]
    return code(*undecided, verdict(0), jump("ne", "r0", NO, 3), *false, store_at("r1", 0, "r2"))


def decided() -> Piece:
    return code(verdict(0), load_at("r0", "r1", 0), jump("eq", "r0", 0, 1), "exit")


def result(ignores: bool, place: int, message: int) -> Piece:
    """The word of validation `place` and one more denial; its message takes `message` slots."""
    word = f"[r1{8 * (place + 1):+d}]"
    error = [jump("eq", "r0", NO, 2), f"stdw {word}, {ERRS}", ja(message + 4 if ignores else 1)]
    count = [load_at("r2", "r1", 0), "add64 r2, 1", store_at("r1", 0, "r2")]
    return code(jump("eq", "r0", YES, message + 9), verdict(1), *error, f"stdw {word}, {FAILS}", *count)


def message_tail(place: int) -> Piece:
    kind = [mov("r6", "r0"), mov("r1", "r0"), "call 1", jump("ne", "r0", TEXT_KIND, 3)]
    return code(*kind, verdict(FIRST_MESSAGE + place), store_at("r1", 0, "r6"))


def memo_tail(number: int) -> Piece:
    """The reference and 1 into the memo of a variable, and back from its routine."""
    memo = lddw("r1", SCRATCH + 8 * number)
    return code(mov("r2", "r0"), "add64 r2, 1", memo, store_at("r1", 0, "r2"), "exit")


def outcome() -> Piece:
    denied = [mov("r0", ADMITTED), jump("eq", "r2", 0, 1), mov("r0", DENIED)]
    return code(verdict(0), load_at("r2", "r1", 8), *denied, store_at("r1", 0, "r0"))


def put_variable(program: Program, part: Part) -> None:
    """A routine, with a jump over it."""
    number = len(program.routines)
    routine, tail = program.expression(part), memo_tail(number)
    program.put_own(part, "jump over", code(ja(routine.size + tail.size)))
    program.routines[part.name] = (number, program.size)
    program.put(part, routine)
    program.put_own(part, "memo", tail)


def put_validation(program: Program, ignores: bool, part: Part, message: Optional[Part]) -> None:
    """A validation, and its message expression if it has one."""
    program.put(part, program.expression(part))
    if message is None:
        program.put_own(part, "result", result(ignores, part.place, 0))
        return
    text, tail = program.expression(message), message_tail(part.place)
    program.put_own(part, "result", result(ignores, part.place, text.size + tail.size))
    program.put(message, text)
    program.put_own(message, "text", tail)


def program_of(policy: dict[str, Any]) -> Program:
    """The code of a policy that is accepted."""
    program, found = Program(), list(parts(policy))
    ignores = policy["spec"].get("failurePolicy") == "Ignore"
    messages = {part.place: part for part in found if part.kind == "message"}
    conditions = [part for part in found if part.kind == "condition"]
    for part in found:
        if part.kind == "variable":
            put_variable(program, part)
    for part in conditions:
        program.put(part, program.expression(part))
        program.put_own(part, "condition", condition_tail(ignores))
    if conditions:
        program.put_own(None, "decided", decided())
    for part in found:
        if part.kind == "validation":
            put_validation(program, ignores, part, messages.get(part.place))
    program.put_own(None, "outcome", outcome())
    program.put_own(None, "exit", code("exit"))
    return program
