"""The static kind of a wide tree, or why it has none.

Kinds are the words of the profile's types, those of typed values, `Type`, and `Opt`. A refusal is the first
from the left, the parts of a node before the node.
"""

from typing import Any, Callable

from ..evaluator import types
from ..evaluator.macros import ROOTS, VARIABLES
from ..evaluator.refused import Refused
from ..evaluator.values import kind as kind_of_value
from .calls import Calls
from .refused import refuse
from .signatures import KINDS_TESTED, OPTIONAL_DYN, ORDERED, PLAIN, TYPED, Opt
from .trees import Call, Field, Has, Index, ListLiteral, Literal, Macro, MapLiteral, Method, Name, Operation, Ternary, Uint

COMPARISONS = ("==", "!=", "<", "<=", ">", ">=")
MOST_OPTIONAL_ENTRIES = 3
TIMES = ("Duration", "Timestamp")


def by_the_profile(place: int, rule: Callable[..., Any], *given: Any) -> Any:
    """A kind by a row of the profile's types, or Y2 at a byte."""
    try:
        return rule(*given)
    except Refused:
        refuse("Y2", place)


def is_type_test(tree: Operation, names: Any) -> bool:
    """Whether a tree is `type(e) == T`, T being no iteration name."""
    if tree.sign not in ("==", "!="):
        return False
    left, right = tree.operands
    is_call = isinstance(left, Call) and left.function == "type" and len(left.arguments) == 1
    return is_call and isinstance(right, Name) and right.name in KINDS_TESTED and right.name not in names


def is_variables(tree: Any, names: dict[str, Any]) -> bool:
    """Whether a tree is the name before those of variables."""
    return isinstance(tree, Name) and tree.name == VARIABLES and (tree.dotted or VARIABLES not in names)


def common_inner(left: str, right: str) -> Any:
    """The kind inside both of two optionals, or None."""
    if left == right:
        return left
    return "Dyn" if left in PLAIN and right in PLAIN else None


def sum_of_times(sign: str, given: list[Any]) -> Any:
    """The kind of a sum or difference of times, or None."""
    if given in (["Duration"], ["Duration", "Duration"]):
        return "Duration"
    if given == ["Timestamp", "Timestamp"]:
        return "Duration" if sign == "-" else None
    if given == ["Timestamp", "Duration"] or given == ["Duration", "Timestamp"] and sign == "+":
        return "Timestamp"
    return None


def unknown(kind: Any) -> Any:
    """A kind without what it says of plain values."""
    if isinstance(kind, Opt):
        return OPTIONAL_DYN if kind.inner in PLAIN else kind
    return "Dyn" if kind in PLAIN else kind


class Kinds(Calls):
    """Kinds over variables, a dict from their names to kinds.

    Without `knows_plain` all plain values are of unknown kind. A gatekeeper knows fewer kinds than API servers do.
    """

    def __init__(self, variables: dict[str, Any], knows_plain: bool = True):
        self.variables = variables
        self.knows_plain = knows_plain

    def of(self, tree: Any, names: dict[str, Any]) -> Any:
        """The kind of a tree under iteration names, a dict to their kinds."""
        found = OF_NODES[type(tree)](self, tree, names)
        return found if self.knows_plain else unknown(found)

    def plain(self, tree: Any, names: dict[str, Any]) -> str:
        """The kind of a tree that has to be plain."""
        return self.has_to_be_plain(tree, self.of(tree, names))

    def has_to_be_plain(self, tree: Any, given: Any) -> str:
        return given if given in PLAIN else refuse("W4", tree.place)

    def literal(self, tree: Literal, _: dict[str, Any]) -> str:
        return types.LITERALS[kind_of_value(tree.value)]

    def uint(self, tree: Uint, _: dict[str, Any]) -> Any:
        refuse("W2", tree.place)

    def name(self, tree: Name, names: dict[str, Any]) -> Any:
        if tree.name in names and not tree.dotted:
            return names[tree.name]
        if tree.name == VARIABLES:
            refuse("Y3", tree.place)
        return "Dyn" if tree.name in ROOTS else refuse("W5", tree.place, tree.name)

    def inside(self, tree: Any, names: dict[str, Any]) -> tuple[Any, ...]:
        """The plain kind that a tree has or carries, and whether it is an optional."""
        given = self.of(tree, names)
        if isinstance(given, Opt):
            return self.has_to_be_plain(tree, given.inner), True
        return self.has_to_be_plain(tree, given), False

    def field(self, tree: Field, names: dict[str, Any]) -> Any:
        if is_variables(tree.operand, names):
            if tree.optional or tree.name not in self.variables:
                refuse("Y3", tree.place)
            return self.variables[tree.name]
        given, carried = self.inside(tree.operand, names)
        if given not in ("Map", "Dyn"):
            refuse("Y2", tree.place)
        return OPTIONAL_DYN if carried or tree.optional else "Dyn"

    def index(self, tree: Index, names: dict[str, Any]) -> Any:
        given, carried = self.inside(tree.operand, names)
        key = self.plain(tree.key, names)
        by_the_profile(tree.place, types.of_index, "Dyn" if carried else given, key)
        return OPTIONAL_DYN if carried or tree.optional else "Dyn"

    def presence(self, tree: Has, names: dict[str, Any]) -> str:
        if is_variables(tree.operand, names):
            refuse("Y3", tree.place)
        given, _ = self.inside(tree.operand, names)
        return "Bool" if given in ("Map", "Dyn") else refuse("Y2", tree.place)

    def operation(self, tree: Operation, names: dict[str, Any]) -> Any:
        if is_type_test(tree, names):
            self.plain(tree.operands[0].arguments[0], names)
            return "Bool"
        given = [self.operand(tree.sign, one, names) for one in tree.operands]
        if all(one in PLAIN for one in given):
            return by_the_profile(tree.place, types.of_operation, tree.sign, given)
        found = self.operation_of_others(tree.sign, given)
        if found is None:
            refuse("W4", next(one.place for one, kind in zip(tree.operands, given) if kind not in PLAIN))
        return found

    def operand(self, sign: str, tree: Any, names: dict[str, Any]) -> Any:
        return "Int" if isinstance(tree, Uint) and sign in COMPARISONS else self.of(tree, names)

    def operation_of_others(self, sign: str, given: list[Any]) -> Any:
        """The kind of an operator on optionals or typed values, or None."""
        if sign in ("+", "-"):
            return sum_of_times(sign, given)
        if sign not in COMPARISONS:
            return None
        if sign in ("==", "!="):
            if all(isinstance(one, Opt) for one in given):
                return "Bool" if common_inner(given[0].inner, given[1].inner) else None
            return "Bool" if given[0] == given[1] and given[0] in TYPED else None
        return "Bool" if given[0] == given[1] and given[0] in ORDERED else None

    def ternary(self, tree: Ternary, names: dict[str, Any]) -> Any:
        condition = self.plain(tree.condition, names)
        if condition not in ("Bool", "Dyn"):
            refuse("Y2", tree.place)
        chosen, other = self.of(tree.chosen, names), self.of(tree.other, names)
        if chosen in PLAIN and other in PLAIN:
            return by_the_profile(tree.place, types.of_ternary, "Bool", chosen, other)
        if isinstance(chosen, Opt) and isinstance(other, Opt):
            inner = common_inner(chosen.inner, other.inner)
            return Opt(inner) if inner else refuse("W4", tree.place)
        if chosen == other and chosen in TYPED:
            return chosen
        return refuse("W4", (tree.other if chosen in PLAIN else tree.chosen).place)

    def optional_part(self, tree: Any, names: dict[str, Any]) -> str:
        """The kind inside an item or entry after a `?`."""
        given = self.of(tree, names)
        if not isinstance(given, Opt):
            refuse("Y2" if given in PLAIN else "W4", tree.place)
        return self.has_to_be_plain(tree, given.inner)

    def items(self, tree: ListLiteral, names: dict[str, Any]) -> list[Any]:
        """The kinds of a list literal's items."""
        return [(self.optional_part if optional else self.plain)(one, names) for optional, one in tree.items]

    def list_literal(self, tree: ListLiteral, names: dict[str, Any]) -> str:
        self.items(tree, names)
        return "List"

    def map_literal(self, tree: MapLiteral, names: dict[str, Any]) -> str:
        for optional, key, value in tree.entries:
            if self.plain(key, names) not in ("String", "Dyn"):
                refuse("Y2", tree.place)
            (self.optional_part if optional else self.plain)(value, names)
        optionals = sum(optional for optional, _, _ in tree.entries)
        computed = any(not isinstance(key, Literal) for _, key, _ in tree.entries)
        if optionals > MOST_OPTIONAL_ENTRIES or optionals and computed:
            refuse("W6", tree.place)
        return "Map"

    def macro(self, tree: Macro, names: dict[str, Any]) -> Any:
        if tree.word in ("optMap", "optFlatMap"):
            return self.over_optional(tree, names)
        given = self.plain(tree.range, names)
        inner = {**names, **dict.fromkeys(tree.names, "Dyn")}
        if isinstance(tree.range, ListLiteral):
            kinds = set(self.items(tree.range, names))
            # the last name is the item's
            inner[tree.names[-1]] = kinds.pop() if len(kinds) == 1 else "Dyn"
        predicate = "Bool" if tree.predicate is None else self.plain(tree.predicate, inner)
        if tree.transform is not None:
            self.plain(tree.transform, inner)
        if given not in ("List", "Map", "Dyn") or predicate not in ("Bool", "Dyn"):
            refuse("Y2", tree.place)
        return "List" if tree.word in ("map", "filter", "transformList") else "Bool"

    def over_optional(self, tree: Macro, names: dict[str, Any]) -> Any:
        given, transform = self.of(tree.range, names), tree.transform
        if not isinstance(given, Opt):
            refuse("Y2" if given in PLAIN else "W4", tree.range.place)
        result = self.of(transform, {**names, tree.names[0]: given.inner})
        if tree.word == "optFlatMap":
            return result if isinstance(result, Opt) else refuse("Y2", transform.place)
        return Opt(result) if result in PLAIN + TYPED else refuse("W4", transform.place)


OF_NODES: dict[type, Callable[..., Any]] = {
    Literal: Kinds.literal, Uint: Kinds.uint, Name: Kinds.name, Field: Kinds.field, Index: Kinds.index,
    Has: Kinds.presence, Operation: Kinds.operation, Ternary: Kinds.ternary, ListLiteral: Kinds.list_literal,
    MapLiteral: Kinds.map_literal, Macro: Kinds.macro, Call: Kinds.call, Method: Kinds.method,
}


def kind_of(tree: Any, variables: dict[str, Any], knows_plain: bool = True) -> Any:
    """The kind of a tree, or the first of its refusals."""
    return Kinds(variables, knows_plain).of(tree, {})
