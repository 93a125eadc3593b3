"""One change of a file of definitions."""

from dataclasses import dataclass


@dataclass(frozen=True)
class Change:
    """Lines of a file that stand for others: `place` is the number of the first, from 1."""

    kind: str
    place: int
    old: tuple[str, ...]
    new: tuple[str, ...]

    def applied(self, text: str) -> str:
        """The text with the change; it has to have the old lines at the place."""
        lines = text.split("\n")
        begin, end = self.place - 1, self.place - 1 + len(self.old)
        if tuple(lines[begin:end]) != self.old:
            raise ValueError(f"line {self.place} is another")
        return "\n".join([*lines[:begin], *self.new, *lines[end:]])
