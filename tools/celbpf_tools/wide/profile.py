"""Wide expressions that are in the profile too, and what the evaluator of the profile says of them."""

from typing import Any, Iterable, Optional

from ..evaluator import grammar, macros, trees, types
from ..evaluator.costs import Costs
from ..evaluator.meaning import Meaning
from ..evaluator.refused import Refused
from . import trees as wide
from .cases import Case, Due
from .grammar import read
from .results import alike

# a refusal that the wide language adds for what the profile accepts: items of a list literal of one kind
ALLOWED = "Y2"


class Lazy(dict[str, Any]):
    """The values of variables, each evaluated when it is first used."""

    def __init__(self, known: dict[str, Any], roots: dict[str, Any]):
        super().__init__()
        self.known = known
        self.meaning = Meaning(roots, self, Costs())

    def __missing__(self, name: str) -> Any:
        self[name] = self.meaning.of(self.known[name])
        return self[name]


class Profile:
    """The trees of a case in the profile; raises Refused if it is not in it."""

    def __init__(self, case: Case):
        self.variables: dict[str, Any] = {}
        self.scope: dict[str, Any] = {}
        for name, text in case.variables.items():
            self.variables[name], self.scope[name] = self.taken(text)
        self.tree, _ = self.taken(case.text)
        # the wide language drops pairs of one sign
        self.has_pairs = any(without_signs(tree)[1] for tree in (self.tree, *self.variables.values()))

    def taken(self, text: str) -> tuple[Any, ...]:
        tree = macros.expand(grammar.read(text))
        return tree, types.check(tree, self.scope)

    def result(self, roots: dict[str, Any]) -> Any:
        return Lazy(self.variables, roots).meaning.of(self.tree)


def in_profile(case: Case) -> Optional[Profile]:
    """The trees of a case in the profile, or None if it is not in it."""
    try:
        return Profile(case)
    except Refused:
        return None


def without_signs(tree: Any) -> tuple[Any, ...]:
    """A tree of the profile without pairs of one sign, and whether it had some."""
    changed = False

    def cut(node: Any) -> Any:
        nonlocal changed
        if isinstance(node, trees.Operation) and len(node.operands) == 1:
            inner = node.operands[0]
            if isinstance(inner, trees.Operation) and inner.sign == node.sign and len(inner.operands) == 1:
                changed = True
                return cut(inner.operands[0])
        if isinstance(node, tuple):
            return tuple(map(cut, node))
        if hasattr(node, "__dataclass_fields__"):
            return type(node)(*(cut(getattr(node, name)) for name in node.__dataclass_fields__))
        return node

    return cut(tree), changed


def as_profile(tree: Any) -> Any:
    """A wide tree as one of the profile, which has all of its forms."""
    one = as_profile

    def several(parts: Iterable[Any]) -> tuple[Any, ...]:
        """Several trees."""
        return tuple(map(as_profile, parts))

    if isinstance(tree, wide.Literal):
        return trees.Literal(tree.value)
    if isinstance(tree, wide.Name):
        return trees.Name(tree.name)
    if isinstance(tree, wide.Field):
        if tree.operand == wide.Name(0, macros.VARIABLES):
            return trees.Variable(tree.name)
        return trees.Selection(one(tree.operand), tree.name)
    if isinstance(tree, wide.Index):
        return trees.Operation("[]", several((tree.operand, tree.key)))
    if isinstance(tree, wide.Has):
        return trees.Has(one(tree.operand), tree.name)
    if isinstance(tree, wide.Operation):
        return trees.Operation(tree.sign, several(tree.operands))
    if isinstance(tree, wide.Ternary):
        return trees.Ternary(*several((tree.condition, tree.chosen, tree.other)))
    if isinstance(tree, wide.ListLiteral):
        return trees.ListLiteral(several(item for _, item in tree.items))
    if isinstance(tree, wide.MapLiteral):
        return trees.MapLiteral(tuple(several(entry[1:]) for entry in tree.entries))
    if isinstance(tree, wide.Macro):
        return trees.Macro(tree.word, one(tree.range), tree.names[0], one(tree.predicate), one(tree.transform))
    if isinstance(tree, wide.Call):
        return trees.Call(tree.function, several(tree.arguments))
    if isinstance(tree, wide.Method):
        return trees.Method(one(tree.target), tree.method, several(tree.arguments))
    return None


class Beside:
    """Counts of what the evaluator of the profile said."""

    def __init__(self) -> None:
        self.expressions = self.results = self.apart = self.refused = 0

    def line(self) -> str:
        return (
            f"{self.expressions} in the profile: {self.results} results as its evaluator's; {self.apart} apart by "
            f"definition, {self.refused} refused by {ALLOWED} alone"
        )

    def difference(self, case: Case, profile: Profile, due: Due) -> Optional[str]:
        """Where the evaluator of the profile differs, or None."""
        if due.refusal:
            self.refused += 1
            return None if due.refusal.startswith(ALLOWED) else f"refused: {due.refusal}"
        # signs that brackets divide are no pair in the wide language
        if without_signs(as_profile(read(case.text)))[0] != without_signs(profile.tree)[0]:
            return "the tree is another"
        self.expressions += 1
        for roots, result, apart in zip(case.roots, due.results, due.apart):
            if apart or profile.has_pairs:
                self.apart += 1
                continue
            found = profile.result(roots)
            # equal values, or the error of both
            if found is not result and alike(found, result) is not True:
                return f"the profile's evaluator has {found!r}, due is {result!r}"
            self.results += 1
        return None


def is_apart(profile: Profile, due: Due) -> bool:
    """Whether the wide language gives a case another meaning than the profile does."""
    return profile.has_pairs or any(due.apart)
