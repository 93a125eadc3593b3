"""A session of `celbpf debug` on a terminal: a prompt, and `help`. What comes by a pipe is the session's own."""

import importlib
import re
import subprocess
import sys
from pathlib import Path
from typing import Callable

from ..dap.capabilities import FAULTS
from ..dap.child import REFUSALS, Child, Ended, Refused, place_in
from ..dap.parts import Parts, on_one_line
from ..dap.variables import OUTCOMES, TRUTHS, count_of_values
from ..entry import Stop
from .refusals import words_of_refusal
from .reports.texts import on_line
from .statuses import GOOD, REFUSED

PROMPT = "(celbpf) "
NUMBER = r"(0|[1-9][0-9]*)"
# the lines of a session: the form, how `help` writes it, and what it does
LINES = (
    (f"s {NUMBER}", "s N", "go N steps on; `s` alone is `s 1`"),
    (f"rs {NUMBER}", "rs N", "go N steps back; `rs` alone is `rs 1`"),
    (f"c {NUMBER}", "c N", "go on to a breakpoint or the end, at most N steps; `c` alone is `c 1000000`"),
    ("rc", "rc", "go back to the last breakpoint, or to step 0"),
    (f"g {NUMBER}", "g K", "go to step K"),
    (f"b {NUMBER}", "b N", "set a breakpoint at slot N, or `b NAME` at a part; `b` alone lists them"),
    (f"d {NUMBER}", "d N", "remove it"),
    ("r", "r", "show the registers"),
    ("l", "l", "list the next instructions"),
    (f"v {NUMBER}", "v H", "show value H; without --review values 4 to 8 are null; `v` alone tells how many there are"),
    (f"m 0x[0-9a-f]{{1,16}} {NUMBER}", "m A L", "show L bytes of memory from address A on, as `m 0x300000000 16`"),
    ("f", "f", "show the open calls"),
    ("w", "w", "show the verdict of a policy"),
    ("p", "p", "list the parts of a policy, with their slots"),
    ("q", "q", "end the session"),
)
ALONE = {"s": "s 1", "rs": "rs 1", "c": "c 1000000"}
HELP = ("help", "h", "?")
QUIT = ("q", "quit", "exit")
# what the letters of a form are
LETTERS = {
    "N": "N is a whole number without leading zeros", "K": "K is a whole number without leading zeros",
    "H": "H is a whole number without leading zeros", "A": "A is 0x and 1 to 16 hex digits in lower case", "L": "L is from 1 to 256",
}
CHANGED = re.compile(rf"(break|clear) {NUMBER}")
# of a policy's verdict, the line of the outcome and that of a validation, with what their numbers mean
VERDICTS = {re.compile(r"verdict (\d+) \d+"): OUTCOMES, re.compile(r"validation \d+ (\d+)"): TRUTHS}
# a listed jump or local call, whose offset is from the next slot on
JUMP = re.compile(r"(\d+) (?:j\w+|call_local) (?:.*, )?([+-]\d+)")
NO_PARTS = "no parts are known: this is an image alone, or its parts are not mapped"


def run(program: Path, words: list[str], parts: Callable[[], Parts] = Parts) -> int:
    """A session of the program with these words, for a person if standard input is a terminal; then `parts` gives its parts."""
    if sys.stdin.isatty():
        return talk(Child([str(program), "debug", *words]), parts())
    sys.stdout.flush()
    ran = subprocess.run([str(program), "debug", *words], stderr=subprocess.PIPE, encoding="utf-8", check=False)
    if ran.returncode:
        raise Stop(words_of_refusal(ran.stderr.removeprefix("celbpf: ").strip()), REFUSED)
    return GOOD


def talk(child: Child, parts: Parts = Parts()) -> int:
    """Asks for lines until one ends the session, or none comes."""
    try:
        # so that lines can be edited, and come again
        importlib.import_module("readline")
    except ImportError:
        pass
    asker = Asker(child, parts)
    try:
        # what the program refuses is told before the first prompt
        child.ask("r")
        print("`help` lists the commands", flush=True)
        while (line := asked()) not in QUIT:
            for said in asker.answer(line):
                print(on_line(said))
    except Ended as why:
        raise Stop(words_of_refusal(str(why).removeprefix("celbpf: ")), REFUSED) from why
    finally:
        child.end()
    return GOOD


def asked() -> str:
    """The next line, with one blank between its words; the end of the input is `q`."""
    try:
        return " ".join(input(PROMPT).split())
    except EOFError:
        print()
        return QUIT[0]


class Asker:
    """Asks the session, and adds what a person wants to know: parts, faults, breakpoints and the number of values."""

    def __init__(self, child: Child, parts: Parts):
        self.child, self.parts = child, parts
        self.breakpoints = set[int]()

    def answer(self, line: str) -> list[str]:
        """The lines of the answer. Only what has a form is sent, so that the session's answer to it is whole."""
        line = ALONE.get(line, line)
        if line in HELP:
            return help_lines()
        own: dict[str, Callable[[], list[str]]] = {"": list, "b": self.listed, "p": self.listed_parts, "v": self.counted}
        if line in own:
            return own[line]()
        if any(re.fullmatch(form, line) for form, _, _ in LINES):
            return [shown for said in self.child.ask(line) for shown in self.shown(said)]
        name, _, rest = line.partition(" ")
        if name == "b" and (slots := self.parts.slots_of(rest)):
            return [shown for slot in slots for shown in self.answer(f"b {slot}")]
        return [self.no_line(line, name, rest)]

    def shown(self, said: str) -> list[str]:
        """A line of the session, with what it means."""
        if said in REFUSALS:
            return [f"{said}: {REFUSALS[said]}"]
        for form, meanings in VERDICTS.items() if self.parts else ():
            if (found := form.fullmatch(said)) and found[1] in meanings:
                return [f"{said}: {meanings[found[1]]}"]
        if found := CHANGED.fullmatch(said):
            (self.breakpoints.add if found[1] == "break" else self.breakpoints.discard)(int(found[2]))
            return [f"{said}{self.named(int(found[2]))}"]
        if found := JUMP.fullmatch(said):
            return [f"{said}  to {int(found[1]) + 1 + int(found[2])}"]
        try:
            place = place_in(said)
        except Refused:
            return [said]
        meaning = f": {FAULTS[place.fault]}" if place.fault in FAULTS else ""
        return [f"{said}{meaning}{self.named(place.pc) if place.is_running else ''}"]

    def named(self, slot: int) -> str:
        """The part and the sub-expression of a slot, if there are parts."""
        return f"  {self.parts.name_at(slot)}" if self.parts.span(slot) else ""

    def listed(self) -> list[str]:
        """The breakpoints."""
        return [f"break {slot}{self.named(slot)}" for slot in sorted(self.breakpoints)] or ["no breakpoint is set"]

    def listed_parts(self) -> list[str]:
        """The parts of the policy, in the order of their slots."""
        spans = self.parts.map.spans if self.parts.map else []
        whole = [span for span in spans if span.part and span.role == "expression" and (span.begin, span.end) == (0, len(span.part.text))]
        return [f"{span.first:5} {span.title}: {on_one_line(self.parts.text_of(span))}" for span in whole] or [NO_PARTS]

    def counted(self) -> list[str]:
        """How many values there are."""
        count = count_of_values(self.child)
        return [f"{count} values, 0 to {count - 1}"]

    def no_line(self, line: str, name: str, rest: str) -> str:
        """What is wrong with a line without a form."""
        forms = {shown.split()[0]: (shown, what) for _, shown, what in LINES}
        if name not in forms:
            return f"{line}: no command; `help` lists them"
        shown, what = forms[name]
        if name == "b" and not rest[:1].isdigit():
            return f"{line}: no part is called {rest}; `p` lists them" if self.parts else f"{line}: {NO_PARTS}"
        letters = [LETTERS[letter] for letter in shown.split()[1:]] or [f"`{shown}` takes no more words"]
        return f"{line}: {'; '.join(letters)}. `{shown}`: {what}"


def help_lines() -> list[str]:
    """What each command does."""
    return [f"{shown:6} {what}" for _, shown, what in LINES]
