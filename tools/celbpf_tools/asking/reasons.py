"""Why an expression is false, as the program answers for its pieces: a tree of values, and what to change.

Lines of the tree are `PIECE is VALUE`; the parts of a piece are indented below it. Of a macro the deciding item is
shown. Pieces that do not affect the outcome have one line, without their parts. Operands of `&&` and `||` after the one
that decides are `not evaluated`: alone they may be the error, but the run did not ask for them.
"""

import re
from typing import Any, Iterator, Optional

from .errors import BRANCHES, LITERAL, MOST_ITEMS, Asking
from .policies import OF_OPTIONAL
from .program import NotAnswered, Program
from .splitter import NotCut, Piece
from .texts import on_one_line
from .values import ERROR, NONE, is_some
from .wide_splitter import cut, is_over_optional, namespace_of

TRUE, FALSE = "true", "false"
BOOLS = {True: TRUE, False: FALSE}
INDENT = "  "
# the most characters of a value in a tree, and the most items that are told of
MOST_VALUE = 120
MOST_TOLD = 3
PATH = re.compile(r"[A-Za-z_][\w.]*(?:\[(?:[0-9]+|'[^']*'|\"[^\"]*\")\][\w.]*)*$")
# how a relation that has to hold, or not to hold, is told of its left operand
RELATIONS = {
    "<": ("below", "at least"), "<=": ("at most", "above"), ">": ("above", "at most"), ">=": ("at least", "below"),
    "==": ("equal to", "other than"), "!=": ("other than", "equal to"), "in": ("in", "not in"),
}
SWAPPED = {"<": ">", "<=": ">=", ">": "<", ">=": "<=", "==": "==", "!=": "!="}
TESTS = {"startsWith": "start with", "endsWith": "end with", "contains": "contain"}
SETS = {"contains": "have every item of", "intersects": "have an item of", "equivalent": "have the same items as"}
# the value of an operand with which a run leaves out the operands after it
ENDING = {"&&": FALSE, "||": TRUE}
# the macros that are true of one item alone
ONE = ("exists_one", "existsOne")
# which items of a macro decide it: for its value the value of their predicate
DECIDING = {("all", FALSE): FALSE, ("exists", TRUE): TRUE, ("exists", FALSE): FALSE, ("all", TRUE): TRUE}


def is_path(piece: Piece) -> bool:
    """Whether a piece is a name with fields and literal indices, whose parts say no more than it does."""
    if piece.kind == "leaf":
        return not LITERAL.match(piece.word)
    if piece.form == "field":
        return is_path(piece.parts[0])
    return piece.form == "index" and is_path(piece.parts[0]) and piece.parts[1].kind == "leaf"


def is_literal(piece: Piece) -> bool:
    """Whether a piece says its value itself."""
    if piece.form in ("list", "map"):
        return all(map(is_literal, piece.parts))
    return piece.kind == "leaf" and bool(LITERAL.match(piece.word))


def is_path_or(piece: Piece) -> bool:
    """Whether a piece is what there is at a path, or something else if there is nothing."""
    return piece.form == "method" and piece.name == "orValue" and is_path(piece.parts[0])


def is_default(piece: Piece) -> bool:
    """Whether a piece is what there is at a path, or a literal if there is nothing."""
    return is_path_or(piece) and is_literal(piece.parts[1])


def operands(piece: Piece) -> list[Any]:
    """The operands of `a && b && c`, or of such a chain of `||`."""
    found = []
    for part in piece.parts:
        found += operands(part) if part.form == piece.form else [part]
    return found


class Reasons:
    """The pieces of an expression, with their values."""

    def __init__(self, asked: Asking):
        self.asked = asked

    def text(self, piece: Piece) -> str:
        """A piece on one line, without the brackets around it."""
        text = " ".join(self.asked.of(piece).split())
        return text[1:-1] if text.startswith("(") and cut_whole(text) else text

    def value(self, piece: Piece, frames: list[Any]) -> str:
        return self.asked.value(self.asked.of(piece), frames)

    def shown(self, value: str) -> str:
        if value == ERROR:
            return "the error"
        return on_one_line(value) if len(value) <= MOST_VALUE else f"{on_one_line(value[:MOST_VALUE])}.."

    # the tree

    def tree(self, piece: Piece, frames: list[Any]) -> Iterator[str]:
        """The lines of a piece and of what decides it."""
        value = self.value(piece, frames)
        yield f"{self.text(piece)} is {self.shown(value)}"
        if not is_path(piece):
            for line in self.below(piece, value, frames):
                yield INDENT + line

    def line(self, piece: Piece, frames: list[Any]) -> Iterator[str]:
        """The one line of a piece that has no say."""
        yield f"{self.text(piece)} is {self.shown(self.value(piece, frames))}"

    def below(self, piece: Piece, value: str, frames: list[Any]) -> Iterator[str]:
        """The lines of the parts of a piece."""
        if piece.kind == "macro":
            yield from self.of_macro(piece, value, frames)
            return
        if piece.form in ENDING:
            yield from self.of_operands(piece, value, frames)
            return
        for part, inner in self.asked.evaluated(piece, frames):
            if not is_literal(part):
                yield from self.tree(part, inner)

    def of_operands(self, piece: Piece, value: str, frames: list[Any]) -> Iterator[str]:
        """The lines of the operands of a chain; one with another value than the chain has no say."""
        is_decided = False
        for part in operands(piece):
            if is_decided:
                yield from () if is_literal(part) else (f"{self.text(part)} is not evaluated",)
                continue
            found = self.value(part, frames)
            if not is_literal(part):
                yield from self.tree(part, frames) if found == value else self.line(part, frames)
            is_decided = found == ENDING[piece.form]

    def of_macro(self, piece: Piece, value: str, frames: list[Any]) -> Iterator[str]:
        if not is_literal(piece.parts[0]):
            yield from self.tree(piece.parts[0], frames)
        wanted = DECIDING.get((piece.word, value))
        if is_over_optional(piece):
            for part, inner in self.asked.turns(piece, frames):
                yield from self.tree(part, inner)
        elif piece.word in ONE and value == FALSE:
            found = [place for place, _ in self.items(piece, frames, TRUE)]
            yield f"{'no item' if not found else f'{len(found)} items'} of {self.asked.number(piece, frames)} are true"
        elif wanted is not None:
            yield from self.of_items(piece, value, wanted, frames)

    def of_items(self, piece: Piece, value: str, wanted: str, frames: list[Any]) -> Iterator[str]:
        """The lines of the first item that decides, or of the first of those that do so together."""
        number = self.asked.number(piece, frames)
        if not number:
            yield "there are no items"
            return
        found = next(iter(self.items(piece, frames, wanted)), None)
        if found is None:
            return
        place, inner = found
        decides = (piece.word, value) in (("all", FALSE), ("exists", TRUE))
        items = " and ".join(f"{name} is {self.shown(self.asked.value(name, inner))}" for name in piece.name.split())
        which = f"item {place} of {number} decides" if decides else f"item {place} of {number}, as the others,"
        yield f"{which}{':' if decides else ''} {items}"
        for line in self.tree(piece.parts[1], inner):
            yield INDENT + line

    def items(self, piece: Piece, frames: list[Any], wanted: str) -> Iterator[tuple[Any, ...]]:
        """The items for which the predicate has a value, with the frames in which they are."""
        for place in range(min(self.asked.number(piece, frames), MOST_ITEMS)):
            inner = [*frames, self.asked.frame(piece, frames, place)]
            if self.value(piece.parts[1], inner) == wanted:
                yield place, inner

    # what to change

    def changes(self, piece: Piece, target: bool, frames: list[Any]) -> list[Any]:
        """What has to be otherwise so that a piece is true, or false: sentences that have to hold together."""
        if is_literal(piece) or self.value(piece, frames) == BOOLS[target]:
            return []
        if piece.kind == "ternary":
            chosen = BRANCHES.get(self.value(piece.parts[0], frames))
            return self.changes(piece.parts[chosen], target, frames) if chosen else []
        if piece.kind == "macro":
            return self.of_macro_changes(piece, target, frames)
        if piece.form == "not":
            return self.changes(piece.parts[0], not target, frames)
        if piece.form in ("&&", "||"):
            return self.of_logic(piece, target, frames)
        return [self.change(piece, target, frames)]

    def of_logic(self, piece: Piece, target: bool, frames: list[Any]) -> list[Any]:
        found = [self.changes(part, target, frames) for part in operands(piece)]
        if (piece.form == "&&") == target:
            return [one for some in found for one in some]
        choices = [" and ".join(some) for some in found if some]
        return [", or ".join(choices)] if choices else []

    def of_macro_changes(self, piece: Piece, target: bool, frames: list[Any]) -> list[Any]:
        """What a macro wants: of `all` each item, of `exists` one."""
        predicate = self.text(piece.parts[1])
        if (piece.word, target) in (("all", True), ("exists", False)):
            found = [self.changes(piece.parts[1], target, inner)
                     for _, inner in self.items(piece, frames, BOOLS[not target])]
            told = [one for some in found[:MOST_TOLD] for one in some]
            return told + ([f"and {len(found) - MOST_TOLD} items more"] if len(found) > MOST_TOLD else [])
        place, name = self.place(piece.parts[0], frames), piece.name.replace(" ", ", ")
        if piece.word == "exists" and target:
            return [f"{place} has to have an item {name} for which {predicate} is true"]
        if piece.word in ONE and target:
            return [f"{place} has to have exactly one item {name} for which {predicate} is true"]
        return [f"{self.text(piece)} has to be {BOOLS[target]}"]

    def change(self, piece: Piece, target: bool, frames: list[Any]) -> str:
        """What has to be otherwise of a piece that is no connective."""
        if piece.form in RELATIONS:
            return self.of_relation(piece, target, frames)
        place = self.place(piece, frames)
        asked = piece.parts[0] if piece.form == "method" and piece.name == "hasValue" else piece
        if piece.form == "has" or asked.form == "field" and asked is not piece:
            whole = self.place(asked.parts[0], frames)
            return f"{whole} has to have the field {asked.name}" if target else f"{whole} must not have the field {asked.name}"
        if namespace_of(piece) == "sets" and piece.name in SETS:
            first, second = (self.other(part, frames) for part in piece.parts[1:])
            return f"{first} {'has to' if target else 'must not'} {SETS[piece.name]} {second}"
        if piece.form == "method" and piece.name in TESTS and not namespace_of(piece):
            word = "has to" if target else "must not"
            return f"{self.place(piece.parts[0], frames)} {word} {TESTS[piece.name]} {self.other(piece.parts[1], frames)}"
        return f"{place} has to be {BOOLS[target]}"

    def of_relation(self, piece: Piece, target: bool, frames: list[Any]) -> str:
        left, right = piece.parts
        form = piece.form
        if form in SWAPPED and is_literal(left) and not is_literal(right):
            left, right, form = right, left, SWAPPED[form]
        word = RELATIONS[form][0 if target else 1]
        if form == "in" and (is_literal(left) or self.is_given(left, frames)):
            return f"{self.place(right, frames)} {'has to' if target else 'must not'} have {self.place(left, frames)}"
        left, before = self.branch(left, frames)
        return " and ".join([*before, f"{self.place(left, frames)} has to be {word} {self.other(right, frames)}"])

    def branch(self, piece: Piece, frames: list[Any]) -> tuple[Any, ...]:
        """The branch of a conditional that is taken; the other if a literal is taken, with what it needs to be taken."""
        if is_default(piece) and self.value(piece.parts[0], frames) == NONE:
            asked = piece.parts[0]
            lacks = f"{self.place(asked.parts[0], frames)} has to have the field {asked.name}"
            return piece, [lacks] if asked.form == "field" else []
        chosen = BRANCHES.get(self.value(piece.parts[0], frames)) if piece.kind == "ternary" else None
        if chosen is None:
            return piece, []
        taken, other = piece.parts[chosen], piece.parts[3 - chosen]
        if not is_literal(taken):
            return taken, []
        if is_literal(other):
            return piece, []
        return other, self.changes(piece.parts[0], chosen == BRANCHES[FALSE], frames)

    def other(self, piece: Piece, frames: list[Any]) -> str:
        """What something is compared with: its value, and where that comes from; one that is the error has no value."""
        if is_literal(piece):
            return self.text(piece)
        value, place = self.value(piece, frames), self.place(piece, frames)
        return place if value == ERROR else f"{self.shown(value)} ({place})"

    def is_given(self, piece: Piece, frames: list[Any]) -> bool:
        """Whether a piece is an item of a list that the policy itself spells."""
        ranges = {name: range_text for range_text, name, _ in frames}
        return self.text(piece) in ranges and is_literal(cut(ranges[self.text(piece)]))

    def place(self, piece: Piece, frames: list[Any]) -> str:
        """A piece with items instead of iteration names, if these are paths or literals of the policy."""
        if is_path_or(piece) and is_some(self.value(piece.parts[0], frames)):
            piece = piece.parts[0]
        text = plain(self.text(piece))
        return self.key(text, frames) or self.standing(text, frames)

    def key(self, text: str, frames: list[Any]) -> str:
        """The key or the index that a name stands for, in words; empty if it stands for none."""
        for depth, (range_text, names, place) in reversed(list(enumerate(frames))):
            *keys, name = names.split()
            if text in keys:
                path, word = plain(range_text.strip()), "index" if isinstance(place, int) else "key"
                return f"the {word} {place}" + (f" of {self.standing(path, frames[:depth])}" if PATH.match(path) else "")
            if text == name:
                break
        return ""

    def standing(self, text: str, frames: list[Any]) -> str:
        """A text with what the iteration names of these frames stand for."""
        for depth, (range_text, names, place) in reversed(list(enumerate(frames))):
            (*keys, name), path = names.split(), plain(range_text.strip())
            for key in keys:
                text = replaced(key, str(place), text)
            if is_literal(cut(range_text)):
                text = replaced(name, self.asked.value(name, frames[: depth + 1]), text)
            elif PATH.match(path) and place == OF_OPTIONAL:
                text = replaced(name, path, text)
            elif PATH.match(path) and (keys or self.asked.value(range_text, frames[:depth]).startswith("[")):
                text = replaced(name, f"{path}[{place}]", text)
        return text


def plain(text: str) -> str:
    """A path that may have optional steps and a literal instead, without these; another text as it is."""
    try:
        piece = cut(text)
    except (NotCut, IndexError):
        # a line that ended a comment
        return text
    if is_default(piece):
        piece = piece.parts[0]
    return text[piece.begin : piece.end].replace(".?", ".").replace("[?", "[") if is_path(piece) else text


def replaced(name: str, by: str, text: str) -> str:
    """A text in which each use of an iteration name is replaced."""
    used = re.compile(rf"(?<![\w.'\"]){re.escape(name)}(?![\w('\"])")
    return used.sub(lambda _: by, text)


def cut_whole(text: str) -> bool:
    """Whether the bracket with which a text begins is closed by its last character."""
    try:
        inner = cut(text[1:-1])
    except (NotCut, IndexError):
        return False
    return inner is not None


def reasons(program: Program, scope: list[Any], text: str, wanted: bool) -> Optional[list[Any]]:
    """The tree of an expression that is to be otherwise, and what to change; `None` if its text is not cut."""
    try:
        whole = cut(text)
    except (NotCut, IndexError):
        return None
    told = Reasons(Asking(program, scope, text))
    try:
        lines = list(told.below(whole, told.value(whole, []), []))
        changes = told.changes(whole, wanted, [])
    except NotAnswered as why:
        return [f"not shown further, since the program answers {why.line} for a part alone"]
    return lines + ([f"to be {BOOLS[wanted]}: {'; '.join(changes)}"] if changes else [])
