"""The bytes of constants, with their names."""

from dataclasses import dataclass, field
from typing import Optional

from .forms import FORMS
from .scanning import Fault, Pieces, bytes_of

# where the constants of an image are in a program's memory
BASE = 0x4_0000_0000
MOST = 1_048_576


@dataclass
class Constants:
    """All bytes, and by name the place of the first; a constant ends where the next name is."""

    bytes: bytearray = field(default_factory=bytearray)
    places: dict[str, int] = field(default_factory=dict)

    def name(self, name: str) -> None:
        """The bytes that follow have this name."""
        self.places[name] = len(self.bytes)

    def add(self, pieces: Pieces) -> None:
        """Adds the texts and bytes of a line, with commas between."""
        while True:
            piece = pieces.next
            if piece.kind == "text":
                self.bytes += bytes_of(pieces.take())
            else:
                if piece.text in FORMS:
                    raise Fault(piece.column, f"{piece.shown} is an instruction; a line `.code` ends the constants")
                value, column = pieces.number('a text such as "a", or a byte,')
                if not 0 <= value <= 255:
                    raise Fault(column, f"{value} is no byte, 0 to 255")
                self.bytes.append(value)
            if len(self.bytes) > MOST:
                raise Fault(piece.column, f"there are more than {MOST:,} bytes of constants")
            if not pieces.takes(","):
                break
        pieces.demand_end()

    def found(self, name: str) -> Optional[tuple[int, int]]:
        """The address of a constant, and how many bytes it has."""
        if name not in self.places:
            return None
        begin = self.places[name]
        names = list(self.places)
        after = names[names.index(name) + 1 :]
        end = self.places[after[0]] if after else len(self.bytes)
        return BASE + begin, end - begin

    def names(self) -> list[str]:
        return list(self.places)
