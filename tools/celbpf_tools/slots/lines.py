"""Instructions as the listing has them, and pieces of code that know where the code of each sub-expression is."""

from dataclasses import dataclass, field
from typing import Any, Iterable, Union

WORD_BITS = 64
SCRATCH = 0x2_0000_0000
VERDICT = 0x3_0000_0000
CONSTANTS = 0x4_0000_0000


@dataclass(frozen=True)
class Use:
    """The call of a variable's routine, by the slot at which that begins; its line depends on where it is put."""

    routine: int

    def line(self, slot: int) -> str:
        return f"call_local {self.routine - slot - 1:+d}"


Line = Union[str, Use]


@dataclass(frozen=True)
class Mark:
    """The slots from `first` to `last` are the code of a node; the register names its value in the slot after them."""

    first: int
    last: int
    node: Any
    register: str
    role: str = "expression"


@dataclass
class Piece:
    """Lines of code with the marks in them, whose slots are counted from the first of the piece."""

    lines: list[Any] = field(default_factory=list)
    marks: list[Any] = field(default_factory=list)
    size: int = 0

    def __add__(self, other: "Piece") -> "Piece":
        return Piece(self.lines + other.lines, self.marks + moved(other.marks, self.size), self.size + other.size)

    def marked(self, node: Any, register: str, role: str = "expression") -> "Piece":
        """The piece as the code of a node, around the marks that are in it."""
        return Piece(self.lines, [Mark(0, self.size - 1, node, register, role), *self.marks], self.size)


def moved(marks: Iterable[Any], by: int) -> list[Any]:
    """Marks that are `by` slots further on."""
    return [Mark(one.first + by, one.last + by, one.node, one.register, one.role) for one in marks]


def slots_of(line: Line) -> int:
    """The slots of a line: two of a wide load, else one."""
    return 2 if isinstance(line, str) and line.startswith("lddw ") else 1


def code(*lines: Line) -> Piece:
    """A piece of these lines."""
    return Piece(list(lines), [], sum(map(slots_of, lines)))


def joined(pieces: Iterable[Any]) -> Piece:
    """Pieces one after another."""
    whole = Piece()
    for one in pieces:
        whole = whole + one
    return whole


def lddw(register: str, word: int) -> str:
    return f"lddw {register}, 0x{word % 2**WORD_BITS:016x}"


def mov(register: str, source: Union[str, int]) -> str:
    return f"mov64 {register}, {source}"


def jump(comparison: str, register: str, other: Union[str, int], offset: int) -> str:
    """A jump by a comparison of 64 bits."""
    return f"j{comparison}64 {register}, {other}, {offset:+d}"


def ja(offset: int) -> str:
    return f"ja {offset:+d}"


def frame_offset(word: int) -> int:
    """Where a word of the frame is, in bytes from R10."""
    return -8 * (word + 1)


def load(register: str, word: int) -> str:
    return f"ldxdw {register}, [r10{frame_offset(word):+d}]"


def store(word: int, register: str) -> str:
    return f"stxdw [r10{frame_offset(word):+d}], {register}"


def clear(word: int) -> str:
    return f"stdw [r10{frame_offset(word):+d}], 0"


def load_at(register: str, base: str, offset: int) -> str:
    return f"ldxdw {register}, [{base}{offset:+d}]"


def store_at(base: str, offset: int, register: str) -> str:
    return f"stxdw [{base}{offset:+d}], {register}"
