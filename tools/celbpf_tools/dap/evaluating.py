"""What is typed at a place of the run: a register, a line of the debugger that only shows, or an expression of CEL."""

import json
import re
from typing import Any

from ..asking.program import NotAnswered, Program
from ..asking.refused import MEANINGS
from ..asking.values import Values
from .arguments import BadRequest
from .child import Place, Refused
from .variables import View

REGISTER = re.compile(r"r(?:10|[0-9])$")
VALUE = re.compile(r"v (?:0|[1-9][0-9]*)$")
SHOWS = re.compile(r"(?:m 0x[0-9a-f]{1,16} [1-9][0-9]{0,2}|[rflw])$")
REFUSED = ("? what", "? range", "? memory")
# the lines of a session that move, which the console does not take, and what it takes
MOVES = re.compile(r"(?:s|rs|c|rc|g|b|db|q|go|step|next|break|continue|help)(?: .*)?$")
TAKES = (
    "the console takes registers (r0), `v N`, `m 0xADDRESS LENGTH`, `r`, `f`, `l`, `w`, and expressions of CEL; "
    "the editor's buttons move"
)


def meaning(refusal: str) -> str:
    """Why an expression is refused, such as `K6 validation 0 W5 objct`, without the place of the policy that was made for it."""
    cause, *more = refusal.split()[3:]
    named = f": {more[0]}" if more and more[0] != "at" else ""
    return f"{MEANINGS.get(cause, 'it is refused')}{named} ({cause})"


class Evaluator:
    """Answers texts at the place of a session; `scope` are the policy's variables."""

    def __init__(self, view: View, program: Program, scope: list[Any]):
        self.view = view
        self.program = program
        self.scope = scope

    def variable(self, text: str, place: Place) -> dict[str, Any]:
        """What a text names, as a variable; a text that names nothing is a `BadRequest`."""
        text = text.strip()
        where = {"pc": str(place.pc), "step": str(place.step), "status": place.status}
        if text in where:
            return self.view.plain(text, where[text])
        if REGISTER.match(text):
            words = dict(line.split() for line in self.view.child.many("r"))
            return self.view.word_of(text, words[text])
        if VALUE.match(text):
            return self.view.value(text, int(text[2:]))
        if SHOWS.match(text):
            return self.shown(text)
        return self.of_cel(text)

    def shown(self, line: str) -> dict[str, Any]:
        """The answer of the debugger to a line."""
        try:
            return self.view.plain(line, "\n".join(self.view.child.many(line)))
        except Refused as why:
            raise BadRequest(f"{line}: {why}") from why

    def of_cel(self, text: str) -> dict[str, Any]:
        """The value of an expression over the review, with the policy's variables."""
        if not text:
            raise BadRequest("expression: empty")
        try:
            found = Values(self.program, self.scope).of(text, [])
        except NotAnswered as why:
            if MOVES.match(text):
                raise BadRequest(TAKES) from why
            is_of_text = why.line.startswith("K6 ") and len(why.line.split()) > len(("K6", "validation", "0"))
            raise BadRequest(f"{text}: {meaning(why.line) if is_of_text else why.line}") from why
        if found == "error":
            return self.view.plain(text, found, "error")
        try:
            return self.view.of_json(text, json.loads(found), text)
        except (ValueError, RecursionError):
            return self.view.plain(text, found)
