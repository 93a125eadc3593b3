"""The result of a wide expression: a value, the error, an optional, or a typed value.

The tree has to have a kind. What no clause names is the error.
"""

from typing import Any, Callable, Optional

from ..evaluator import operations
from ..evaluator.values import ERROR, in_byte_order
from . import times
from .calling import Calling
from .clauses import Clauses
from .kinds import is_type_test, is_variables
from .results import NONE, Duration, Some, alike, is_optional, is_typed, kind_of, kinds_of
from .trees import Call, Field, Has, Index, ListLiteral, Literal, Macro, MapLiteral, Method, Name, Operation, Ternary, Uint

WORDS_OF_KINDS = {"int": "int", "string": "text", "bool": "bool", "null_type": "null", "list": "list", "map": "map"}
ONE_NAME = {
    "all": operations.every, "exists": operations.some, "exists_one": operations.exactly_one,
    "existsOne": operations.exactly_one, "filter": operations.kept, "map": operations.kept,
    "transformList": operations.kept,
}
COMPARED: dict[str, Callable[[Any, Any], bool]] = {
    "<": lambda left, right: left < right, "<=": lambda left, right: left <= right,
    ">": lambda left, right: left > right, ">=": lambda left, right: left >= right,
}


def selected(value: Any, name: str) -> Any:
    """`sel`: the optional that a field of a value is."""
    if value is None:
        return NONE
    if kind_of(value) != "map":
        return ERROR
    return Some(value[name]) if name in value else NONE


def indexed(value: Any, key: Any) -> Any:
    """`at`: the optional that an index of a value is."""
    if kind_of(key) not in ("int", "text"):
        return ERROR
    if value is None:
        return NONE
    if kinds_of(value, key) == ("map", "text"):
        return Some(value[key]) if key in value else NONE
    if kinds_of(value, key) == ("list", "int"):
        return Some(value[key]) if 0 <= key < len(value) else NONE
    return ERROR


class Meaning(Calling):
    """Evaluation over the five roots and the variables, dicts from names to results."""

    def __init__(self, roots: dict[str, Any], variables: dict[str, Any], clauses: Optional[Clauses] = None):
        self.roots = roots
        self.variables = variables
        self.clauses = clauses or Clauses()

    def of(self, tree: Any, items: Optional[dict[str, Any]] = None) -> Any:
        """The result of a tree, where `items` are the iteration names in scope."""
        return OF_NODES[type(tree)](self, tree, items or {})

    def seen(self, clause: str, result: Any) -> Any:
        """Counts a clause of the definition; the result."""
        self.clauses.add(clause)
        return result

    def literal(self, tree: Literal, _: dict[str, Any]) -> Any:
        return self.seen("literal", tree.value)

    def uint(self, tree: Uint, _: dict[str, Any]) -> int:
        return self.seen("uint", tree.number)

    def name(self, tree: Name, items: dict[str, Any]) -> Any:
        if tree.name not in items:
            return self.seen("root after a dot" if tree.dotted else "root", self.roots[tree.name])
        if tree.dotted:
            return self.seen("root after a dot that a name hides", self.roots[tree.name])
        clause = "iteration name that hides a root" if tree.name in self.roots else "iteration name"
        return self.seen(clause, items[tree.name])

    def field(self, tree: Field, items: dict[str, Any]) -> Any:
        if is_variables(tree.operand, items):
            return self.seen("variable", self.variables[tree.name])
        operand = self.of(tree.operand, items)
        if operand is NONE:
            return self.seen("field of none", NONE)
        if isinstance(operand, Some):
            return self.seen("field of some", selected(operand.value, tree.name))
        if not tree.optional:
            return self.seen("field", ERROR if is_typed(operand) else operations.select(operand, tree.name))
        return self.optional_result("optional field", selected(operand, tree.name))

    def optional_result(self, clause: str, result: Any) -> Any:
        """Counts an optional step by what it gives."""
        return self.seen(f"{clause}: {'some' if isinstance(result, Some) else result}", result)

    def index(self, tree: Index, items: dict[str, Any]) -> Any:
        operand = self.of(tree.operand, items)
        if operand is NONE:
            return self.seen("index of none", NONE)
        key = self.of(tree.key, items)
        if isinstance(operand, Some):
            return self.seen("index of some", indexed(operand.value, key))
        if not tree.optional:
            return self.seen("index", operations.index(operand, key))
        return self.optional_result("optional index", indexed(operand, key))

    def presence(self, tree: Has, items: dict[str, Any]) -> Any:
        operand = self.of(tree.operand, items)
        if operand is NONE or operand is None:
            return self.seen("has of null" if operand is None else "has of none", False)
        clause = "has of some" if isinstance(operand, Some) else "has"
        found = selected(operand.value if isinstance(operand, Some) else operand, tree.name)
        return self.seen(f"{clause}: {found is not ERROR}", ERROR if found is ERROR else found is not NONE)

    def operation(self, tree: Operation, items: dict[str, Any]) -> Any:
        if is_type_test(tree, items):
            return self.type_test(tree, items)
        if tree.sign == "in" and tree.operands[1] == ListLiteral(0, ()):
            of_error = self.of(tree.operands[0], items) is ERROR
            return self.seen("in an empty list of the error" if of_error else "in an empty list", False)
        operands = [self.of(one, items) for one in tree.operands]
        if tree.sign in ("==", "!="):
            return self.equality(tree.sign, *operands)
        if any(map(is_optional, operands)):
            return ERROR
        if any(map(is_typed, operands)):
            return self.typed_operation(tree.sign, operands)
        signs: dict[str, Any] = operations.UNARY if len(operands) == 1 else operations.BINARY
        return self.seen(f"{tree.sign} of {len(operands)}", signs[tree.sign](*operands))

    def type_test(self, tree: Operation, items: dict[str, Any]) -> Any:
        call, named = tree.operands
        value = self.of(call.arguments[0], items)
        if value is ERROR:
            return self.seen("type of the error", ERROR)
        is_kind = kind_of(value) == WORDS_OF_KINDS[named.name]
        return self.seen(f"type {named.name}", is_kind == (tree.sign == "=="))

    def equality(self, sign: str, left: Any, right: Any) -> Any:
        found = alike(left, right)
        words = {kind_of(left), kind_of(right)} & {"optional", "typed", "error"}
        self.clauses.add(f"equality of {words.pop()}" if len(words) == 1 else "equality")
        return ERROR if found is ERROR else found == (sign == "==")

    def typed_operation(self, sign: str, operands: list[Any]) -> Any:
        """A comparison of two typed values of one kind, or an operator of times."""
        if sign == "-" and len(operands) == 1:
            given = operands[0]
            result = times.lasting(-given.nanoseconds) if isinstance(given, Duration) else ERROR
            return self.seen("negative duration", result)
        if sign in ("+", "-"):
            return self.seen(f"{sign} of times", (times.sum_of if sign == "+" else times.difference_of)(*operands))
        left, right = operands
        if sign not in COMPARED or type(left) is not type(right):
            return ERROR
        return self.seen("order of typed", COMPARED[sign](left, right))

    def ternary(self, tree: Ternary, items: dict[str, Any]) -> Any:
        condition = self.of(tree.condition, items)
        if kind_of(condition) != "bool":
            return self.seen("conditional without a bool", ERROR)
        return self.seen("conditional", self.of(tree.chosen if condition else tree.other, items))

    def list_literal(self, tree: ListLiteral, items: dict[str, Any]) -> Any:
        found = []
        for optional, item in tree.items:
            result = self.of(item, items)
            if not optional:
                found.append(result)
            elif isinstance(result, Some):
                found.append(self.seen("item of some", result.value))
            elif result is not NONE:
                found.append(self.seen("item of the error", ERROR))
            else:
                self.clauses.add("item of none")
        return self.seen("list", ERROR if ERROR in found else found)

    def map_literal(self, tree: MapLiteral, items: dict[str, Any]) -> Any:
        found: dict[str, Any] = {}
        wrong = False
        for optional, key_tree, tree_of_value in tree.entries:
            key, value = self.of(key_tree, items), self.of(tree_of_value, items)
            wrong |= kind_of(key) != "text" or value is ERROR
            if optional and value is NONE:
                self.clauses.add("entry of none")
                continue
            if optional and isinstance(value, Some):
                value = self.seen("entry of some", value.value)
            if not wrong:
                wrong |= key in found
                found[key] = value
        return self.seen(f"map: {not wrong}", ERROR if wrong else found)

    def macro(self, tree: Macro, items: dict[str, Any]) -> Any:
        if tree.word in ("optMap", "optFlatMap"):
            return self.over_optional(tree, items)
        values = self.of(tree.range, items)
        word = kind_of(values)
        if word not in ("list", "map"):
            return self.seen(f"{tree.word} over neither", ERROR)
        keys = in_byte_order(values) if word == "map" else list(range(len(values)))
        pairs = [(key, values[key]) for key in keys]
        turns = []
        for key, value in pairs:
            # a macro with one name visits the keys of a map
            given = (key, value) if len(tree.names) == 2 else (key if word == "map" else value,)
            turns.append(self.turn(tree, {**items, **dict(zip(tree.names, given))}, given[-1]))
        result = ONE_NAME[tree.word](turns)
        return self.seen(f"{tree.word} over {word} by {len(tree.names)}", result)

    def turn(self, tree: Macro, items: dict[str, Any], item: Any) -> tuple[Any, ...]:
        """The predicate for an item, and what is kept of it."""
        truth = True if tree.predicate is None else self.of(tree.predicate, items)
        if tree.transform is None or truth is not True:
            return truth, item
        return truth, self.of(tree.transform, items)

    def over_optional(self, tree: Macro, items: dict[str, Any]) -> Any:
        given = self.of(tree.range, items)
        if not isinstance(given, Some):
            return self.seen(f"{tree.word} of {given}", given)
        result = self.of(tree.transform, {**items, tree.names[0]: given.value})
        if tree.word == "optFlatMap":
            return self.seen("optFlatMap of some", result)
        return self.seen("optMap of some", ERROR if result is ERROR else Some(result))


OF_NODES: dict[type, Callable[..., Any]] = {
    Literal: Meaning.literal, Uint: Meaning.uint, Name: Meaning.name, Field: Meaning.field, Index: Meaning.index,
    Has: Meaning.presence, Operation: Meaning.operation, Ternary: Meaning.ternary,
    ListLiteral: Meaning.list_literal, MapLiteral: Meaning.map_literal, Macro: Meaning.macro,
    Call: Meaning.call, Method: Meaning.method,
}
