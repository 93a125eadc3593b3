"""The code of an image as its listing: lines, the slots that they stand for, and the bytes there."""

import bisect
from dataclasses import dataclass
from typing import Any, Optional

HEADER = 16
SLOT = 8
CALL_LOCAL = "call_local "


@dataclass(frozen=True)
class Line:
    """A line of the listing: its first slot, how many slots it stands for, and its text."""

    slot: int
    size: int
    text: str


def lines_of(listing: str) -> list[Line]:
    """The lines of a listing; a wide load stands for two slots, any other line for one."""
    found, slot = [], 0
    for text in listing.splitlines():
        size = 2 if text.startswith("lddw ") else 1
        found.append(Line(slot, size, text))
        slot += size
    return found


class Code:
    """The code of an image: its bytes and its listing, whose lines are counted from 1."""

    def __init__(self, image: bytes, listing: str):
        self.slots = int.from_bytes(image[8:12], "little")
        self.constants = int.from_bytes(image[12:16], "little")
        self.bytes = image[HEADER : HEADER + SLOT * self.slots]
        self.lines = lines_of(listing)
        self.starts = [line.slot for line in self.lines]

    @property
    def text(self) -> str:
        """The listing with the number of its slot before each line, which is what a reader sees."""
        width = len(str(max(self.slots - 1, 0)))
        return "".join(f"{line.slot:>{width}}  {line.text}\n" for line in self.lines)

    def has(self, slot: int) -> bool:
        """Whether the code has this slot."""
        return 0 <= slot < self.slots

    def line_of(self, slot: int) -> Optional[int]:
        """The number of the line that a slot belongs to, or `None` outside the code."""
        return bisect.bisect_right(self.starts, slot) if self.has(slot) else None

    def start_of(self, slot: int) -> Optional[int]:
        """The first slot of the instruction that a slot belongs to, or `None` outside the code."""
        line = self.line_of(slot)
        return None if line is None else self.lines[line - 1].slot

    def slot_of(self, line: int) -> Optional[int]:
        """The first slot of a line, or `None` if the listing has no such line."""
        return self.lines[line - 1].slot if 1 <= line <= len(self.lines) else None

    def calls_local(self, slot: int) -> bool:
        """Whether the instruction at a slot opens a frame."""
        line = self.line_of(slot)
        return line is not None and self.lines[line - 1].slot == slot and self.lines[line - 1].text.startswith(CALL_LOCAL)

    def bytes_of(self, line: Line) -> str:
        """The bytes of a line's slots as hex digits, two for each byte."""
        return self.bytes[SLOT * line.slot : SLOT * (line.slot + line.size)].hex(" ")

    def disassembled(self, slot: int, offset: int, count: int) -> list[dict[str, Any]]:
        """`count` instructions from the one that is `offset` lines after that of a slot; outside the code they are invalid."""
        at = self.index_near(slot) + offset
        return [self.instruction(place) for place in range(at, at + count)]

    def index_near(self, slot: int) -> int:
        """The place of a slot's line; before and after the code each slot counts as a line."""
        if slot < 0:
            return slot
        line = self.line_of(slot)
        return line - 1 if line is not None else len(self.lines) + slot - self.slots

    def instruction(self, place: int) -> dict[str, Any]:
        """The instruction at a place among the lines, as the protocol shows it."""
        if place < 0:
            return {"address": str(place), "instruction": "outside the code", "presentationHint": "invalid"}
        if place >= len(self.lines):
            address = self.slots + place - len(self.lines)
            return {"address": str(address), "instruction": "outside the code", "presentationHint": "invalid"}
        line = self.lines[place]
        return {
            "address": str(line.slot), "instructionBytes": self.bytes_of(line), "instruction": line.text, "line": place + 1,
        }
