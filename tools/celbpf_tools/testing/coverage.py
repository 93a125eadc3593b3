"""Which outcomes of a policy's parts its cases reach.

For each condition and validation these are true, false and an error; for a message expression a text and an error,
where its validation denies; for the condition of each `? :` true (the first branch), false (the second) and an error,
where it is evaluated. All is asked of the program: the questions are validations of policies with the same variables,
and a session shows which of them are false or an error.
"""

from dataclasses import dataclass, field
from typing import Any, Callable, Iterator

from ..asking import policies
from ..asking.errors import INSTEAD
from ..asking.program import NotAnswered, Program
from ..asking.splitter import NotCut, Piece
from ..asking.wide_splitter import cut, is_over_optional, namespace_of

TRUE, FALSE, ERROR = "true", "false", "an error"
STATES = {"1": FALSE, "2": ERROR}
# the most validations of a policy
MOST = 64


@dataclass
class Question:
    """An expression, and of what its answers speak.

    `means` gives the outcome that an answer shows, for those answers that show one. A question about what is evaluated
    only if a validation denies has its place in `denial`. It counts if each text of `needs` is true.
    """

    item: str
    text: str
    scope: list[Any]
    means: dict[str, Any]
    kind: str = ""
    denial: int = -1
    needs: tuple[Any, ...] = ()


@dataclass
class Item:
    """A part, or a condition of a `? :`, with the outcomes that it can have, and those that were reached."""

    title: str
    outcomes: tuple[Any, ...]
    reached: set[Any] = field(default_factory=set)


SELF = {TRUE: TRUE, FALSE: FALSE, ERROR: ERROR}


def items_of(policy: dict[str, Any]) -> tuple[Any, ...]:
    """The items of a policy by their titles, and the questions about them."""
    items: dict[str, Any] = {}
    questions: list[Any] = []
    for part in policies.evaluated(policy):
        if part.kind == "message":
            items[part.title] = Item(part.title, ("a text", ERROR))
            text = f"dyn(\n{part.text}\n) == dyn(\n{part.text}\n)"
            questions.append(Question(part.title, text, part.scope, {TRUE: "a text", ERROR: ERROR}, "message", part.place))
        elif part.kind in ("condition", "validation"):
            items[part.title] = Item(part.title, (TRUE, FALSE, ERROR))
            questions.append(Question(part.title, part.text, part.scope, SELF, part.kind))
        for title, question in branches(part):
            items.setdefault(title, Item(title, (TRUE, FALSE, ERROR)))
            questions.append(question)
    return items, questions


def branches(part: policies.Part) -> Iterator[tuple[Any, ...]]:
    """The questions about each `? :` of a part, with the title of its item."""
    try:
        whole = cut(part.text)
    except NotCut:
        return
    denial = part.place if part.kind == "message" else -1
    kind = "condition" if part.kind == "condition" else "branch"
    for place, (piece, some, every, needs) in enumerate(ternaries(part.text, whole, str, str, ())):
        condition = part.text[piece.parts[0].begin : piece.parts[0].end]
        title = f"{part.title}, `? :` {place} by {' '.join(condition.split())}"
        asked = [
            (some(f"({condition})"), {TRUE: TRUE}),
            (some(f"!({condition})"), {TRUE: FALSE}),
            (every(f"(({condition}) || !({condition}))"), {ERROR: ERROR}),
        ]
        for text, means in asked:
            yield title, Question(title, text, part.scope, means, kind, denial, needs)


def ternaries(
    text: str, piece: Piece, some: Callable[..., Any], every: Callable[..., Any], needs: tuple[Any, ...]
) -> Iterator[tuple[Any, ...]]:
    """Each `? :` in a piece, with what makes a question about it one of the whole.

    `some` asks whether something holds at one evaluation at least, `every` whether it does at each. `needs` has what
    is true if it is evaluated at all, as far as that is not asked inside a macro.
    """
    parts = [text[part.begin : part.end] for part in piece.parts]
    if piece.kind == "ternary":
        yield piece, some, every, needs
    for place, part in enumerate(piece.parts):
        inner_some, inner_every, inner_needs = some, every, needs
        if guard := guard_of(piece, parts, place):
            inner_some = within(some, f"({guard} && ", ")")
            inner_every = within(every, f"(!{guard} || ", ")")
            inner_needs = needs if is_in_macro(some) else (*needs, guard)
        elif piece.kind == "macro" and place:
            inner_some, inner_every = (within(one, *around) for one, around in zip((some, every), questions(piece, parts, place)))
            inner_needs = needs if is_in_macro(some) else (*needs, is_visited(piece, parts))
        yield from ternaries(text, part, inner_some, inner_every, inner_needs)


def guard_of(piece: Piece, parts: list[Any], place: int) -> str:
    """What is true if a part of a piece is evaluated; empty if it always is, or if the piece is a macro."""
    if piece.kind == "ternary" and place:
        return f"({parts[0]})" if place == 1 else f"!({parts[0]})"
    if piece.form == "method" and piece.name in INSTEAD and place and not namespace_of(piece):
        return f"!({parts[0]}).hasValue()"
    return ""


def questions(piece: Piece, parts: list[Any], place: int) -> tuple[Any, ...]:
    """What is before and after a question about a part of a macro: whether it holds for an item, and for each."""
    if is_over_optional(piece):
        before = f"({parts[0]}).optMap({piece.name}, "
        return (before, ").orValue(false)"), (before, ").orValue(true)")
    names = piece.name.replace(" ", ", ")
    # what is mapped is evaluated where the predicate is true alone
    guard, unless = (f"({parts[1]}) && ", f"!({parts[1]}) || ") if place == 2 else ("", "")
    return (f"({parts[0]}).exists({names}, {guard}", ")"), (f"({parts[0]}).all({names}, {unless}", ")")


def is_visited(piece: Piece, parts: list[Any]) -> str:
    """What is true if a macro visits what it is called on."""
    if is_over_optional(piece):
        return f"({parts[0]}).hasValue()"
    return f"({parts[0]}).all({piece.name.split()[0]}, true)"


def is_in_macro(some: Callable[..., Any]) -> bool:
    """Whether a question is asked inside a macro."""
    return any(name in some("") for name in (".exists(", ".optMap("))


def within(outer: Callable[..., Any], before: str, after: str) -> Callable[..., Any]:
    return lambda text: outer(f"{before}{text}{after}")


class Coverage:
    """The outcomes of one policy's items, over its cases."""

    def __init__(self, path: str, policy: dict[str, Any], program: Program):
        self.path = path
        self.ignores = policy["spec"].get("failurePolicy") == "Ignore"
        self.program = program
        self.items, questions = items_of(policy)
        self.not_asked: set[Any] = set()
        # conditions do not see all documents that others see
        conditions = [question for question in questions if question.kind == "condition"]
        others = [question for question in questions if question.kind != "condition"]
        self.images = [("condition", *one) for one in self.compiled([*conditions, *needed_of(conditions)])]
        self.images += [("", *one) for one in self.compiled([*others, *needed_of(others)])]

    def compiled(self, questions: list[Any]) -> Iterator[tuple[Any, ...]]:
        """The questions in groups, each with the image of a policy that asks them."""
        for at in range(0, len(questions), MOST):
            yield from self.group(questions[at : at + MOST])

    def group(self, questions: list[Any]) -> Iterator[tuple[Any, ...]]:
        """The questions in as few groups as the program accepts."""
        try:
            yield questions, self.program.kept_image(policy_of(questions))
        except NotAnswered:
            if len(questions) == 1:
                self.not_asked.add(questions[0].item)
                return
            half = len(questions) // 2
            yield from self.group(questions[:half])
            yield from self.group(questions[half:])

    def add(self, documents: list[Any]) -> None:
        """Counts what a case with these documents reaches."""
        answers = []
        for kind, questions, image in self.images:
            try:
                shown = self.program.shown_verdict(image, self.program.seen(kind, documents))
            except NotAnswered:
                return
            answers += list(zip(questions, states(shown, len(questions))))
        is_run = self.runs([state for question, state in answers if question.kind == "condition" and question.means is SELF])
        denying = self.denying(answers)
        holds = {question.text for question, state in answers if state == TRUE}
        for question, state in answers:
            is_asked = question.kind == "condition" or is_run and (question.denial < 0 or question.denial in denying)
            if is_asked and state in question.means and holds.issuperset(question.needs):
                self.items[question.item].reached.add(question.means[state])

    def runs(self, conditions: list[Any]) -> bool:
        """Whether a policy whose conditions come to this runs."""
        return FALSE not in conditions and ERROR not in conditions

    def denying(self, answers: list[Any]) -> set[Any]:
        """The places of the validations that deny."""
        bad = (FALSE,) if self.ignores else (FALSE, ERROR)
        validations = [state for question, state in answers if question.kind == "validation"]
        return {place for place, state in enumerate(validations) if state in bad}

    def lines(self) -> Iterator[str]:
        """What was reached, a line for each item."""
        of = sum(len(item.outcomes) for item in self.items.values())
        reached = sum(len(item.reached) for item in self.items.values())
        yield f"coverage of {self.path}: {reached} of {of}"
        for item in self.items.values():
            seen = [outcome for outcome in item.outcomes if outcome in item.reached]
            never = [outcome for outcome in item.outcomes if outcome not in item.reached]
            told = ", ".join(seen) or "nothing"
            told += f"; never {', '.join(never)}" if never else ""
            yield f"    {item.title}: {'not asked, it is too large' if item.title in self.not_asked else told}"


def needed_of(questions: list[Any]) -> list[Any]:
    """A question for each text that others need, which shows no outcome."""
    scopes = {text: question.scope for question in questions for text in question.needs}
    return [Question("", text, scope, {}) for text, scope in scopes.items()]


def policy_of(questions: list[Any]) -> dict[str, Any]:
    """A policy whose validations are these questions."""
    scope = max((question.scope for question in questions), key=len)
    text = " ".join(question.text for question in questions)
    return policies.whole({
        "variables": policies.needed(scope, text),
        "validations": [{"expression": f"dyn(\n{question.text}\n)"} for question in questions],
    })


def states(shown: list[Any], count: int) -> list[Any]:
    """What each of the validations came to, by the lines of `w`."""
    found = [TRUE] * count
    for line in shown:
        if line.startswith("validation "):
            _, place, word = line.split()
            found[int(place)] = STATES[word]
    return found
