"""All refusals of a policy, with their places in its file."""

import copy
import json
import re
from collections.abc import Iterator
from dataclasses import dataclass
from typing import Any, Optional

from ..asking import policies
from ..asking.keys import LEAST
from ..asking.program import Program
from ..asking.refused import Refused, refused
from ..asking.texts import pointed
from .cluster import VERSION
from .inputs import Thing
from .key_causes import cause
from .one_decision import policy_text
from .positions import Marks, Path, Position
from .reports.texts import on_line

# what a part that is refused is replaced by, so that the parts after it are asked
VALID = {"variable": "dyn(null)", "condition": "true", "validation": "true", "message": "'a'"}
LISTS = {"variable": "variables", "condition": "matchConditions", "validation": "validations", "message": "validations"}
KEYS = {"message": "messageExpression"}
# what `Keys` says of an item, a specification or a document that lacks a key
MISSING = tuple(f"{key} is missing" for key in ("expression", "name", "spec", "validations"))
# the number of steps of a path such as `spec.validations[0].message`
ITEM_DEPTH = 4
# a key, or a place in a list, of the path of a key
STEP = re.compile(r"([^.\[\]]+)|\[([0-9]{1,9})\]")
# literals of types that the language does not have
LITERALS = {"doubles": re.compile(r"(?<![\w.])\d+(?:\.\d+|[eE][-+]?\d+)"), "unsigned ints": re.compile(r"(?<![\w.])\d+[uU]")}


@dataclass
class Fault:
    """A refusal of a policy: its code, what is meant, and the place in the file."""

    policy: Thing
    refusal: str
    refused: Refused
    position: Position
    # what to write instead, if it is known
    hint: str = ""

    @property
    def place(self) -> str:
        """File, line and column."""
        column = f":{self.position.column}" if self.position.column else ""
        return f"{self.policy.place.file}:{self.position.line}{column}"

    @property
    def part(self) -> str:
        """How the part or the key is called."""
        return self.refused.part.title if self.refused.part else self.refused.key

    @property
    def code(self) -> str:
        words = self.refusal.split()
        return words[3] if words[0] == "K6" else words[0]

    @property
    def meaning(self) -> str:
        """What is meant, in the words of one who writes policies."""
        if self.refused.part and self.code == "P4":
            return outside(self.refused.part.text, self.refused.begin) or self.refused.meaning
        if self.refused.key and self.refused.value in MISSING:
            return str(self.refused.value)
        if self.code == "K3" and self.refused.key:
            return cause(self.refused.key, self.refused.value) or self.refused.meaning
        if self.code == "K2":
            return f"its apiVersion is {self.policy.api_version}, and not {VERSION}"
        return self.refused.meaning

    @property
    def message(self) -> str:
        """What is meant, after the part or the key."""
        return f"{self.part}: {self.meaning} ({self.code})" if self.part else f"{self.meaning} ({self.code})"

    def lines(self) -> Iterator[str]:
        """What is printed: the place and what is meant, and the text of the part with carets."""
        yield on_line(": ".join(filter(None, (self.place, self.policy.name, self.message))))
        if self.refused.part:
            yield pointed(self.refused.part.text, self.refused.begin, self.refused.end)
        if self.hint:
            yield on_line(f"    write {self.hint}")


def place_of(fault: Fault) -> tuple[int, int]:
    """The line and the column of a refusal, by which refusals are sorted."""
    return fault.position.line, fault.position.column


def outside(text: str, at: int) -> str:
    """Which form of CEL that is outside the language does not fit at a place, if it is a known one."""
    if any(text[at - back :].startswith((".?", "[?")) for back in (0, 1) if at >= back):
        return "optional fields, `.?` and `[?`, are outside the language"
    for what, literal in LITERALS.items():
        for found in literal.finditer(text):
            if found.start() < at < found.end():
                return f"{what}, such as {found[0]}, are outside the language"
    return ""


def path_of(part: policies.Part) -> Path:
    """The path of a part's text in the document."""
    return "spec", LISTS[part.kind], part.place, KEYS.get(part.kind, "expression")


def path_of_key(key: str) -> Path:
    """The path of a key as `of_key` calls it, such as `spec.validations[1].expression`."""
    return tuple(int(place) if place else name for name, place in STEP.findall(key))


def without(policy: dict[str, Any], part: policies.Part) -> Any:
    """A policy in which a part is replaced by one that is accepted."""
    made = copy.deepcopy(policy)
    made["spec"][LISTS[part.kind]][part.place][KEYS.get(part.kind, "expression")] = VALID[part.kind]
    return made


def without_key(policy: Any, refusal: str, found: Refused) -> Any:
    """A policy without a key that K3 refuses, so that what else is refused is shown; `None` if there is no such policy."""
    path = path_of_key(found.key) if refusal.split()[0] == "K3" and found.value not in MISSING else ()
    if not path or path[-1] in ("spec", "validations"):
        return None
    made = copy.deepcopy(policy)
    holder = made
    try:
        for step in path[:-1]:
            holder = holder[step]
        del holder[path[-1]]
    except (KeyError, IndexError, TypeError):
        return None
    if len(path) == ITEM_DEPTH and path[1] in LEAST:
        # what its list needs, so that no missing key is told of a misspelled one
        for name, value in LEAST[str(path[1])].items():
            holder.setdefault(name, f"{value}{path[2]}" if name == "name" else value)
    return made


def faults(program: Program, thing: Thing, marks: Optional[Marks]) -> Iterator[Fault]:
    """The refusals of a policy, in the order in which it is compiled. One of the whole document but K3 of a key ends them."""
    policy: Any = json.loads(policy_text(thing))
    seen: set[Path] = set()
    while refusal := program.refusal(policy):
        found = refused(program, policy, refusal)
        yield Fault(thing, refusal, found, position_of(thing, found, marks))
        changed = without_key(policy, refusal, found)
        if changed is not None:
            policy = changed
            continue
        if found.part is None or path_of(found.part) in seen or refusal.split()[0] in ("G3", "G4"):
            return
        seen.add(path_of(found.part))
        policy = without(policy, found.part)


def position_of(thing: Thing, found: Refused, marks: Optional[Marks]) -> Position:
    """The place of what is refused, or that of the policy."""
    line = thing.place.line
    if marks is None or not (found.part or found.key):
        return Position(max(1, line))
    if found.part is None:
        return marks.of_key(line, path_of_key(found.key))
    return marks.position(line, path_of(found.part), found.begin, found.part.text)
