"""The instruction of a line, as `celbpf asm` spells it, with the names that it uses."""

import difflib
import re
from dataclasses import dataclass
from typing import Callable

from .constants import Constants
from .forms import EXPECTED, FAR, FORMS, HELPER, HELPERS, IMMEDIATE, MEMORY, REGISTER, TARGET, VALUE, WIDE
from .scanning import Fault, Piece, Pieces

REGISTERS = tuple(f"r{number}" for number in range(11))
SIZE = ".size"
# the eight bytes of a slot in stored order
SLOT = re.compile(r"0x[0-9a-f]{16}")
# what other assemblers call an instruction or a section, or what is meant by an operation that BPF does not have
OTHER_NAMES = {
    "ret": "exit", ".text": ".code", "je32": "jeq32", "je64": "jeq64", "jz32": "jeq32", "jz64": "jeq64", "jmp": "ja", "goto": "ja",
    "xadd32": "atomic_add32", "xadd64": "atomic_add64", "atomic_fetch_xchg32": "atomic_xchg32", "atomic_fetch_xchg64": "atomic_xchg64",
    "atomic_fetch_cmpxchg32": "atomic_cmpxchg32", "atomic_fetch_cmpxchg64": "atomic_cmpxchg64", "nop": "ja +0",
}


@dataclass
class Jump:
    """The label of a jump, where it is written, and the bits of the offset."""

    label: str
    column: int
    bits: int


@dataclass
class Item:
    """An instruction: its text for `celbpf asm`, how many slots it has, and its jump to a label, if it has one."""

    plain: str
    slots: int = 1
    jump: tuple[Jump, ...] = ()


def fits(value: int, bits: int, column: int, more: str = "") -> int:
    """A number that fits a signed field."""
    if not -(1 << (bits - 1)) <= value < 1 << (bits - 1):
        raise Fault(column, f"{value} does not fit {bits} bits signed{more}")
    return value


def instead(mnemonic: str, value: int) -> str:
    """What to write for an immediate that does not fit 32 bits signed."""
    if mnemonic.endswith("64") or mnemonic == "stdw":
        return "; lddw loads 64 bits"
    return f"; {value - (1 << 32)} has the same bits" if 0 <= value < 1 << 32 else ""


class Operands:
    """The operands of an instruction, read one after another."""

    def __init__(self, mnemonic: str, pieces: Pieces, constants: Constants):
        self.mnemonic, self.pieces, self.constants = mnemonic, pieces, constants
        self.jumps: list[Jump] = []
        self.readers: dict[str, Callable[[], str]] = {
            REGISTER: self.register, IMMEDIATE: self.immediate, VALUE: self.value, MEMORY: self.memory, WIDE: self.wide,
            TARGET: lambda: self.target(16, TARGET), FAR: lambda: self.target(32, FAR), HELPER: self.helper,
        }

    def read(self, kinds: tuple[str, ...]) -> list[str]:
        """All operands, with commas between."""
        found = []
        for place, kind in enumerate(kinds):
            if place:
                self.pieces.demand(",")
            found.append(self.readers[kind]())
        self.pieces.demand_end()
        return found

    def register(self) -> str:
        piece = self.pieces.next
        if piece.text not in REGISTERS:
            more = "; registers are in lower case" if piece.text.lower() in REGISTERS else ""
            raise self.pieces.expected(EXPECTED[REGISTER], more)
        return self.pieces.take().text

    def immediate(self, expected: str = EXPECTED[IMMEDIATE]) -> str:
        """A number, or how many bytes a constant has."""
        piece = self.pieces.next
        if piece.kind == "word" and piece.text.endswith(SIZE):
            return str(self.constant(self.pieces.take())[1])
        value, column = self.pieces.number(expected)
        return str(fits(value, 32, column, instead(self.mnemonic, value)))

    def helper(self) -> str:
        """The number of a helper, or its name."""
        piece = self.pieces.next
        if piece.kind != "word" or piece.text.endswith(SIZE):
            return self.immediate(EXPECTED[HELPER])
        if piece.text not in HELPERS:
            more = similar(piece.text, list(HELPERS)) or "; docs/HELPERS.md lists them, and `call_local` calls a label"
            raise Fault(piece.column, f"no helper is called {piece.shown}{more}")
        return str(HELPERS.index(self.pieces.take().text) + 1)

    def value(self) -> str:
        """A register or a number."""
        piece = self.pieces.next
        if piece.kind == "word" and not piece.text.endswith(SIZE):
            if piece.text.lower() in REGISTERS:
                return self.register()
            name = piece.text
            more = f"; `lddw` loads the address of a constant, and `{name}{SIZE}` is its size" if self.constants.found(name) else ""
            raise self.pieces.expected(EXPECTED[VALUE], more)
        return self.immediate(EXPECTED[VALUE])

    def target(self, bits: int, kind: str) -> str:
        """A label, or the number of slots from the next one."""
        piece = self.pieces.next
        if piece.kind == "word" and piece.text.isidentifier():
            self.jumps.append(Jump(piece.text, piece.column, bits))
            return self.pieces.take().text
        value, column = self.pieces.number(EXPECTED[kind])
        return f"{fits(value, bits, column):+d}"

    def memory(self) -> str:
        """A register and an offset in brackets."""
        if not self.pieces.takes("["):
            raise self.pieces.expected(EXPECTED[MEMORY])
        register, offset = self.register(), 0
        if self.pieces.next.text in ("+", "-"):
            value, column = self.pieces.number("a number")
            offset = fits(value, 16, column)
        elif not self.pieces.next.text == "]":
            raise self.pieces.expected("`+`, `-` or `]`")
        self.pieces.demand("]")
        return f"[{register}{offset:+d}]"

    def wide(self) -> str:
        """A number of 64 bits, or the address of a constant."""
        piece = self.pieces.next
        if piece.kind == "word" and not piece.text.startswith("."):
            address, size = self.constant(self.pieces.take())
            value = size if piece.text.endswith(SIZE) else address
            return f"0x{value:016x}"
        value, column = self.pieces.number(EXPECTED[WIDE])
        if not -(1 << 63) <= value < 1 << 64:
            raise Fault(column, f"{value} does not fit 64 bits")
        return f"0x{value % (1 << 64):016x}"

    def constant(self, piece: Piece) -> tuple[int, int]:
        """The address of a constant, and how many bytes it has."""
        name = piece.text.removesuffix(SIZE)
        found = self.constants.found(name)
        if found is None:
            raise Fault(piece.column, f"no constant is called `{name}`{similar(name, self.constants.names())}")
        return found


def similar(name: str, names: list[str]) -> str:
    """What may be meant by a name that is not there."""
    near = difflib.get_close_matches(name, names, 1)
    return f"; there is `{near[0]}`" if near else ""


def meant(name: str) -> str:
    """What may be meant by an instruction that is not there."""
    if name.lower() in FORMS:
        return "; instructions are in lower case"
    if name in OTHER_NAMES:
        return f"; write `{OTHER_NAMES[name]}`"
    if re.fullmatch(r"atomic_(fetch_)?sub(32|64)", name):
        return "; there is none: negate the register and add it"
    if re.fullmatch(r"atomic_[a-z_]+(8|16)", name):
        return "; atomic operations have 32 or 64 bits"
    if f"{name}32" in FORMS and f"{name}64" in FORMS:
        return f"; there are `{name}32` and `{name}64`"
    # a near name with another meaning helps nobody: one letter may turn a comparison round
    near = difflib.get_close_matches(name, list(FORMS), 1, 0.8)
    return f"; there is `{near[0]}`" if near else "; docs/MACHINE.md lists them"


def slot_of(pieces: Pieces) -> Item:
    """A slot by its bytes."""
    piece = pieces.next
    if piece.kind != "number" or not SLOT.fullmatch(piece.text.lower()):
        raise pieces.expected("the eight bytes of a slot, 0x and 16 hex digits,")
    pieces.take()
    pieces.demand_end()
    return Item(f".slot {piece.text.lower()}")


def byte_fits(mnemonic: str, pieces: Pieces) -> None:
    """Refuses a constant that has more bits than a store of bytes or half words takes."""
    bits = {"stb": 8, "sth": 16}.get(mnemonic)
    if bits is None or not pieces.left or pieces.left[-1].kind != "number":
        return
    number = Pieces("")
    number.left = pieces.left[-2:] if len(pieces.left) > 1 and pieces.left[-2].text == "-" else pieces.left[-1:]
    value, column = number.number(EXPECTED[IMMEDIATE])
    if not -(1 << (bits - 1)) <= value < 1 << bits:
        raise Fault(column, f"{value} has more than the {bits} bits that `{mnemonic}` stores")


def item_of(pieces: Pieces, constants: Constants) -> Item:
    """The instruction or the slot of a line."""
    piece = pieces.take()
    if piece.text == ".slot":
        return slot_of(pieces)
    if piece.text not in FORMS:
        raise Fault(piece.column, f"no instruction is called {piece.shown}{meant(piece.text)}")
    byte_fits(piece.text, pieces)
    operands = Operands(piece.text, pieces, constants)
    words = operands.read(FORMS[piece.text])
    plain = f"{piece.text} {', '.join(words)}".rstrip()
    return Item(plain, 2 if piece.text == "lddw" else 1, tuple(operands.jumps))
