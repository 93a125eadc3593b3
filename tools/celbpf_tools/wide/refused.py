"""Why a wide expression is refused."""

from typing import NoReturn

from ..evaluator.refused import Refused


class Wrong(Refused):
    """A refusal of an expression: its code, the byte where it is, and the name that it is about, if any."""

    def __init__(self, code: str, place: int, name: str = ""):
        super().__init__(" ".join(filter(None, [code, name, f"at {place}"])))
        self.code = code
        self.place = place
        self.name = name


def refuse(code: str, place: int, name: str = "") -> NoReturn:
    raise Wrong(code, place, name)
