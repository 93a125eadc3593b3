"""The fixed instructions of each construct: what is made of operands that are in their registers."""

from typing import Any

from .lines import Piece, code, ja, jump, lddw, load, mov, store

NO, YES = 2, 3
INT_KIND, TEXT_KIND = 3, 4
LEAST = 1 << 63
INT_ANSWER = ["call 3", ja(1), mov("r0", 0)]
# a truth is turned around
OPPOSITE = [mov("r1", "r0"), "call 23"]
# the slots that operands of arithmetic pass when they are no ints
AFTER_LEFT, AFTER_RIGHT = 9, 6


def int_operands(offset: int) -> Piece:
    """The ints that R6 and R7 name; if they name no ints, a jump to the slot `offset` after this."""
    left = [mov("r1", "r6"), "call 1", jump("ne", "r0", INT_KIND, offset + AFTER_LEFT)]
    right = [mov("r1", "r7"), "call 1", jump("ne", "r0", INT_KIND, offset + AFTER_RIGHT)]
    words = [mov("r1", "r6"), "call 2", mov("r6", "r0"), mov("r1", "r7"), "call 2", mov("r7", "r0")]
    return code(*left, *right, *words)


def checked(operation: str, below: str, above: str) -> list[Any]:
    """A sum or a difference that is the error if it does not fit."""
    fits = [jump("slt", "r7", 0, 2), jump(above, "r1", "r6", 4), ja(1), jump(below, "r1", "r6", 2)]
    return [mov("r1", "r6"), f"{operation}64 r1, r7", *fits, *INT_ANSWER]


def least_by_minus_one(way_on: int) -> list[Any]:
    """A jump over `way_on` slots for the least int and -1."""
    return [jump("ne", "r7", -1, 3), lddw("r2", LEAST), jump("eq", "r6", "r2", way_on)]


def product() -> list[Any]:
    begin = [mov("r1", "r6"), "mul64 r1, r7", jump("eq", "r7", 0, 7), *least_by_minus_one(5)]
    return begin + [mov("r2", "r1"), "sdiv64 r2, r7", jump("ne", "r2", "r6", 2), *INT_ANSWER]


def divided(operation: str) -> list[Any]:
    return [jump("eq", "r7", 0, 8), *least_by_minus_one(4), mov("r1", "r6"), f"{operation}64 r1, r7", *INT_ANSWER]


def negation() -> list[Any]:
    kind = [mov("r1", "r6"), "call 1", jump("ne", "r0", INT_KIND, 9)]
    word = [mov("r1", "r6"), "call 2", mov("r1", "r0"), lddw("r2", LEAST), jump("eq", "r1", "r2", 3)]
    return kind + word + ["neg64 r1", *INT_ANSWER]


JOIN = [ja(3), mov("r1", "r6"), mov("r2", "r7"), "call 11"]
LESS, EQUAL = ["call 10"], ["call 9"]
BINARY = {
    "<": code(*LESS), ">": code(*LESS), "<=": code(*LESS, *OPPOSITE), ">=": code(*LESS, *OPPOSITE),
    "==": code(*EQUAL), "!=": code(*EQUAL, *OPPOSITE), "in": code("call 15"), "[]": code("call 7"),
    "+": int_operands(10) + code(*checked("add", "sge", "slt"), *JOIN),
    "-": int_operands(8) + code(*checked("sub", "sle", "sgt")),
    "*": int_operands(12) + code(*product()),
    "/": int_operands(9) + code(*divided("sdiv")),
    "%": int_operands(9) + code(*divided("smod")),
}
# the registers of the left and the right operand, where they are not R1 and R2
REGISTERS = {"<=": ("r2", "r1"), ">": ("r2", "r1"), **{sign: ("r6", "r7") for sign in "+-*/%"}}
UNARY = {"!": ("r1", code("call 23")), "-": ("r6", code(*negation()))}
TESTS = {"startsWith": code("call 12"), "endsWith": code("call 13"), "contains": code("call 14")}
STRING = code(
    mov("r1", "r6"), "call 1", jump("ne", "r0", TEXT_KIND, 2), mov("r0", "r6"), ja(2), mov("r1", "r6"), "call 22"
)
# a function's operand is in this register for these instructions
FUNCTIONS = {"size": ("r1", code("call 8")), "string": ("r6", STRING)}
# the truths that decide `&&` and `||`, and the others
DECIDING = {"&&": (NO, YES), "||": (YES, NO)}
# the slots that a deciding left side leaves out beside those of the right one
ABSORBED = 6


def absorbing(decides: int, other: int, word: int) -> Piece:
    """The end of `&&` or `||`, with the left side in this word."""
    tests = [jump("eq", "r0", decides, 3), jump("ne", "r1", other, 1), jump("eq", "r0", other, 1)]
    return code(load("r1", word), *tests, mov("r0", 0))


def push(word: int) -> Piece:
    """Appends an item to the list in this word."""
    return code(mov("r2", "r0"), load("r1", word), "call 17", store(word, "r0"))


def put(word: int) -> Piece:
    """Puts a value at the key of the next word into the map in this one."""
    return code(mov("r3", "r0"), load("r2", word + 1), load("r1", word), "call 19", store(word, "r0"))
