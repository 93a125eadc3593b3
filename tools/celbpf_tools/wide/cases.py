"""A wide expression with variables and documents, and its results."""

from dataclasses import dataclass, field
from typing import Any, Iterator, Optional

from ..evaluator.macros import ROOTS
from ..evaluator.refused import Refused
from ..seeded import policies
from ..seeded.expressions import KINDS
from .calling import NotDecided
from .clauses import Clauses
from .documents import Pool
from .expression import Scope, taken, variable
from .expressions import LIST_FORMS, WideExpressions
from .meaning import Meaning
from .texts import BLANKS

VARIABLES = ["v", "w", "limit"]
TYPED = ["quantity", "duration", "timestamp"]
SPOILS = [
    *policies.SPOILS, (".?", "?."), (".?", "."), ("[?", "["), ("'", "'''"), ("1", "1.5"), ("1", "1u"), ("'", "b'"),
    (".orValue", ".orvalue"), ("optional.of", "optional.new"), ("(k, ", "(k, k, "),
    (".transformList(", ".transformMap("),
    ("has(", "has(object.?"), ("quantity(", "url("), ("object", "authorizer"), (".", ".`a b`."), ("'", "`"),
    (".hasValue()", ""), (".orValue(", ".or("), ("[", "[?"), ("{", "{?"), ("variables.", "variables.?"), (".", ".?"),
    (".matches('", ".matches('a**"), ("{?", "{?object.kind: optional.none(), ?"),
    ("quantity(", "variables.limit.add(quantity('1')).asInteger() + quantity("),
]


@dataclass
class Case:
    """The text of an expression, variables by name, and the roots of several reviews."""

    text: str
    variables: dict[str, Any]
    roots: list[Any]


@dataclass
class Due:
    """The refusal of a case, or a result for each review, with the clauses that the profile defines otherwise.

    A case that is refused for the kind of a plain value has results too, since a gatekeeper may not know the kind; or else
    `behind` is why it is refused whatever these kinds are, which may be named first.
    """

    refusal: str = ""
    behind: str = ""
    results: list[Any] = field(default_factory=list)
    apart: list[Any] = field(default_factory=list)


def cases(numbers: Any, share: int, reviews: int, of_lists: bool = False) -> Iterator[Case]:
    """Cases from a seed; `of_lists` leaves out functions of texts and typed values."""
    pool, forms = Pool(numbers), LIST_FORMS if of_lists else None
    typed = [] if of_lists else TYPED
    while True:
        kinds: dict[str, Any] = {}
        variables = {}
        for name in numbers.some(VARIABLES, 3):
            others = [*(f"optional {one}" for one in KINDS), *typed]
            kind = numbers.pick([*KINDS, *others] if numbers.below(100) < share else KINDS)
            maker = WideExpressions(numbers, dict(kinds), ROOTS, share, forms)
            variables[name] = made(maker, kind, numbers.below(3))
            kinds[name] = kind
        maker = WideExpressions(numbers, kinds, ROOTS, share, forms)
        text = maker.text(numbers.pick(["bool", "bool", *KINDS]), 1 + numbers.below(4))
        if numbers.one_in(20):
            text = spoiled(numbers, text)
        yield Case(text, variables, pool.several(reviews))


def spoiled(numbers: Any, text: str) -> str:
    """A text with one thing changed, which mostly is refused."""
    old, new = numbers.pick(SPOILS)
    return text.replace(old, new, 1)


def made(maker: WideExpressions, kind: str, room: int) -> str:
    """The text of a variable of a kind."""
    if kind.startswith("optional "):
        return maker.optional(kind.split()[1], room)
    return maker.typed(kind, room) if kind in TYPED else maker.text(kind, room)


class Variables(dict[str, Any]):
    """The results of variables, each evaluated when it is first used."""

    def __init__(self, trees: dict[str, Any]):
        super().__init__()
        self.trees = trees
        self.meaning: Optional[Meaning] = None

    def __missing__(self, name: str) -> Any:
        assert self.meaning is not None
        self[name] = self.meaning.of(self.trees[name])
        return self[name]


def result_of(tree: Any, variables: dict[str, Any], roots: dict[str, Any], clauses: Clauses) -> Any:
    """The result of a tree over roots and the trees of variables; N8 if a review is not decided."""
    lazy = Variables(variables)
    lazy.meaning = Meaning(roots, lazy, clauses)
    try:
        return lazy.meaning.of(tree)
    except NotDecided as why:
        return why


def trees(case: Case, knows_plain: bool) -> tuple[Any, ...]:
    """The trees of the variables and of the expression; raises Refused."""
    scope, variables = Scope(knows_plain=knows_plain), {}
    for name, text in case.variables.items():
        # a policy's expressions are read without the blanks around them
        variables[name] = variable(name, text.strip(BLANKS), scope)
    return variables, taken(case.text.strip(BLANKS), scope)


def due(case: Case, clauses: Clauses) -> Due:
    """What the definition says of a case."""
    found = Due()
    try:
        variables, tree = trees(case, True)
    except Refused as why:
        found.refusal = why.text
        try:
            variables, tree = trees(case, False)
        except Refused as other:
            found.behind = other.text
            return found
    for roots in case.roots:
        own = Clauses()
        found.results.append(result_of(tree, variables, roots, own))
        found.apart.append(own.apart())
        clauses.counts += own.counts
    return found
