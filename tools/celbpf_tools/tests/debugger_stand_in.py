"""Stands in for the program: it answers `list`, `compile` and `debug` as docs/DEBUGGER.md says, for one run.

The run was worked out by hand, by docs/MACHINE.md, of this code, whose helper call places value 9:

    0  mov64 r0, 1
    1  call_local +2
    2  mov64 r0, 2
    3  exit
    4  call 3
    5  exit

Under the name of an image that begins with `fault` it stops at slot 3 by F3 instead of the exit.
"""

import sys
from pathlib import Path
from typing import Any, Callable

LISTING = "mov64 r0, 1\ncall_local +2\nmov64 r0, 2\nexit\ncall 3\nexit\n"
# of each step: pc, how many calls are open, how many values there are, and R0
STEPS = [(0, 0, 9, 0), (1, 0, 9, 1), (4, 1, 9, 1), (5, 1, 10, 9), (2, 0, 10, 9), (3, 0, 10, 2), (3, 0, 10, 2)]
ENDS = {False: "exited 0x0000000000000002", True: "fault F3"}
VALUES = {4: '{"spec":{"replicas":5,"names":["a","b"]}}', 5: "null", 6: "null", 7: "null", 8: '{"uid":"u1"}', 9: "3"}
ZEROS = "0x" + "0" * 16
RECORD = f"return 2 r6 {ZEROS} r7 {ZEROS} r8 {ZEROS} r9 {ZEROS}"


class StandIn:
    """A session on the run."""

    def __init__(self, faults: bool):
        self.faults = faults
        self.shown = 0
        self.breakpoints: set[Any] = set()

    def at(self, step: int) -> tuple[Any, ...]:
        return STEPS[min(step, len(STEPS) - 1)]

    def stops(self, step: int) -> bool:
        return step >= len(STEPS) - 1

    def move(self, step: int) -> str:
        self.shown = step
        status = ENDS[self.faults] if self.stops(step) else "running"
        return f"step {step} pc {self.at(step)[0]} {status}\n"

    def go_on(self, count: int) -> str:
        for step in range(self.shown + 1, self.shown + count + 1):
            if self.stops(step) or self.at(step)[0] in self.breakpoints:
                return self.move(step)
        return self.move(self.shown + count)

    def reverse(self) -> str:
        before = [step for step in range(self.shown) if self.at(step)[0] in self.breakpoints]
        return self.move(max(before, default=0))

    def numbered(self, word: str, number: int) -> str:
        if word == "b":
            self.breakpoints.add(number)
            return f"break {number}\n"
        if word == "d":
            self.breakpoints.discard(number)
            return f"clear {number}\n"
        if word == "v":
            known = number < self.at(self.shown)[2]
            return f"value {number} {VALUES.get(number, 'null')}\n" if known else "? range\n"
        if word == "rs" and number > self.shown:
            return "? range\n"
        moves: dict[str, Callable[[], str]] = {"s": lambda: self.move(self.shown + number), "rs": lambda: self.move(self.shown - number)}
        moves.update({"g": lambda: self.move(number), "c": lambda: self.go_on(number)})
        return moves[word]() if word in moves else "? what\n"

    def answer(self, line: str) -> str:
        pc, depth, _, first = self.at(self.shown)
        if line == "r":
            return f"r0 0x{first:016x}\n" + "".join(f"r{n} {ZEROS}\n" for n in range(1, 10)) + "r10 0x0000000100000200\n"
        if line == "f":
            return f"depth {depth}\n" + f"{RECORD}\n" * depth
        if line == "w":
            return "verdict 3 1\nvalidation 0 1\n" if self.stops(self.shown) else "verdict 0 0\n"
        if line == "rc":
            return self.reverse()
        if line.startswith("m 0x300000000 "):
            return f"0x0000000300000000{' 00' * int(line.split()[2])}\n"
        words = line.split(" ")
        return self.numbered(words[0], int(words[1])) if len(words) == 2 and words[1].isdigit() else "? what\n"


def main() -> None:
    command, path = sys.argv[1:3]
    if command == "list":
        print(LISTING, end="")
    elif command == "compile":
        Path(sys.argv[3]).write_bytes(b"CELBPF02" + bytes([6, 0, 0, 0, 0, 0, 0, 0]) + bytes(48))
    else:
        session = StandIn(Path(path).name.startswith("fault"))
        for line in sys.stdin:
            if line == "q\n":
                break
            print(session.answer(line.rstrip("\n")), end="", flush=True)


if __name__ == "__main__":
    main()
