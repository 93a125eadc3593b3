"""A whole text: its lines, names and jumps."""

from collections.abc import Iterator
from dataclasses import dataclass, field

from .constants import Constants
from .items import Item, Jump, item_of, similar
from .scanning import Fault, Pieces

CODE, CONSTANTS = ".code", ".constants"
MOST_SLOTS = 65_536


@dataclass
class Line:
    """A line that has pieces: its number from 1, and what is left of it after its label."""

    number: int
    pieces: Pieces


@dataclass
class Placed:
    """An instruction, or a label, with its line and its first slot."""

    plain: str
    number: int
    slot: int
    slots: int = 0
    jumps: tuple[Jump, ...] = ()


@dataclass
class Program:
    """What is read of a text, and what is wrong in it, each with the number of its line."""

    placed: list[Placed] = field(default_factory=list)
    constants: Constants = field(default_factory=Constants)
    faults: list[tuple[int, Fault]] = field(default_factory=list)
    # by name the line that has it, and for a label the slot
    lines: dict[str, int] = field(default_factory=dict)
    labels: dict[str, int] = field(default_factory=dict)

    @property
    def plain(self) -> str:
        """The text for `celbpf asm`."""
        return "".join(f"{one.plain}\n" for one in self.placed)

    @property
    def slots(self) -> int:
        """The number of slots up to here."""
        return self.placed[-1].slot + self.placed[-1].slots if self.placed else 0


def read(text: str) -> Program:
    """The program of a text. Constants are read first, so that code before them may name them."""
    program = Program()
    code: list[Line] = []
    section = CODE
    for number, line in enumerate(text.replace("\r\n", "\n").split("\n"), 1):
        try:
            pieces = Pieces(line)
            if not pieces.left:
                continue
            if pieces.next.text in (CODE, CONSTANTS):
                section = pieces.take().text
                pieces.demand_end()
            elif section == CODE:
                code.append(Line(number, pieces))
            else:
                take_constants(program, Line(number, pieces))
        except Fault as fault:
            program.faults.append((number, fault))
    for one in code:
        try:
            take_code(program, one)
        except Fault as fault:
            program.faults.append((one.number, fault))
    program.faults += jump_faults(program)
    program.faults.sort(key=lambda one: (one[0], one[1].column))
    return program


def named(program: Program, line: Line) -> str:
    """The name that a line begins with, if it begins with one and a colon."""
    left = line.pieces.left
    if len(left) < 2 or left[0].kind != "word" or left[1].text != ":":
        if left and left[-1].text == ":" and left[0].kind == "word":
            raise Fault(left[1].column, "a label has letters, digits and `_` alone")
        return ""
    piece = line.pieces.take()
    line.pieces.take()
    if not piece.text.isidentifier():
        raise Fault(piece.column, f"{piece.shown} is no name: letters, digits and `_`")
    if piece.text in program.lines:
        raise Fault(piece.column, f"{piece.shown} is also in line {program.lines[piece.text]}")
    program.lines[piece.text] = line.number
    return piece.text


def take_constants(program: Program, line: Line) -> None:
    """Takes a line of constants."""
    name = named(program, line)
    if name:
        program.constants.name(name)
    if line.pieces.left or not name:
        program.constants.add(line.pieces)


def take_code(program: Program, line: Line) -> None:
    """Takes a line of code: a label, an instruction, or both."""
    name, slot = named(program, line), program.slots
    if name:
        program.labels[name] = slot
        program.placed.append(Placed(f"{name}:", line.number, slot))
    if line.pieces.left:
        first = line.pieces.next
        item: Item = item_of(line.pieces, program.constants)
        if slot + item.slots > MOST_SLOTS:
            raise Fault(first.column, f"there are more than {MOST_SLOTS:,} slots")
        program.placed.append(Placed(item.plain, line.number, slot, item.slots, item.jump))


def jump_faults(program: Program) -> Iterator[tuple[int, Fault]]:
    """Jumps to labels that are not there, or too far for their offsets."""
    for one in program.placed:
        for jump in one.jumps:
            if jump.label not in program.labels:
                why = f"no label is called `{jump.label}`{similar(jump.label, list(program.labels))}"
                yield one.number, Fault(jump.column, why)
                continue
            offset = program.labels[jump.label] - one.slot - one.slots
            if not -(1 << (jump.bits - 1)) <= offset < 1 << (jump.bits - 1):
                far = f"`{jump.label}` is {offset:+,d} slots away, and an offset has {jump.bits} bits; ja32 has 32"
                yield one.number, Fault(jump.column, far)
