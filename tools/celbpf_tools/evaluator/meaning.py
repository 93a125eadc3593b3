"""What an expanded expression means: a value, or the error."""

from typing import Any, Optional

from . import operations
from .trees import Call, Has, ListLiteral, Literal, Macro, MapLiteral, Method, Name, Selection, Ternary, Variable
from .values import ERROR, in_byte_order, kind


class Meaning:
    """Evaluation over the five roots and the variables, with what it costs.

    `roots` and `variables` are dicts from names to values; a variable may be the error.
    """

    def __init__(self, roots: dict[str, Any], variables: dict[str, Any], costs: Any):
        self.roots = roots
        self.variables = variables
        self.costs = costs

    def of(self, tree: Any, items: Optional[dict[str, Any]] = None) -> Any:
        """The meaning of a tree, where `items` are the iteration names in force."""
        result = self.of_node(tree, items or {})
        self.costs.visit(result)
        return result

    def of_node(self, tree: Any, items: dict[str, Any]) -> Any:
        if isinstance(tree, Literal):
            return self.of_literal(tree)
        if isinstance(tree, Name):
            return items[tree.name] if tree.name in items else self.roots[tree.name]
        if isinstance(tree, Variable):
            return self.variables[tree.name]
        if isinstance(tree, Ternary):
            return self.of_ternary(tree, items)
        if isinstance(tree, Macro):
            return self.of_macro(tree, items)
        if isinstance(tree, ListLiteral):
            return self.of_list(tree, items)
        if isinstance(tree, MapLiteral):
            return self.of_map(tree, items)
        return self.of_operands(tree, items)

    def of_literal(self, literal: Literal) -> Any:
        if kind(literal.value) == "text":
            self.costs.text(literal.value)
        return literal.value

    def of_ternary(self, tree: Ternary, items: dict[str, Any]) -> Any:
        condition = self.of(tree.condition, items)
        if kind(condition) != "bool":
            return ERROR
        return self.of(tree.chosen if condition else tree.other, items)

    def of_list(self, literal: ListLiteral, items: dict[str, Any]) -> Any:
        found = [self.of(item, items) for item in literal.items]
        for value in found:
            self.costs.keep(value)
        return ERROR if ERROR in found else found

    def of_map(self, literal: MapLiteral, items: dict[str, Any]) -> Any:
        entries = [(self.of(key, items), self.of(value, items)) for key, value in literal.entries]
        for _, value in entries:
            self.costs.keep(value)
        if any(kind(key) != "text" or value is ERROR for key, value in entries):
            return ERROR
        return dict(entries) if len(dict(entries)) == len(entries) else ERROR

    def of_operands(self, tree: Any, items: dict[str, Any]) -> Any:
        """The meaning of a node whose operands are all evaluated."""
        if isinstance(tree, (Selection, Has)):
            self.costs.text(tree.field)
            operand = self.of(tree.operand, items)
            meaning = operations.select if isinstance(tree, Selection) else operations.has
            return meaning(operand, tree.field)
        if isinstance(tree, Call):
            return operations.CALLS[tree.function](*(self.of(one, items) for one in tree.arguments))
        if isinstance(tree, Method):
            arguments = [self.of(one, items) for one in (tree.target, *tree.arguments)]
            return operations.METHODS[tree.method](*arguments)
        operands = [self.of(one, items) for one in tree.operands]
        signs = operations.UNARY if len(operands) == 1 else operations.BINARY
        return signs[tree.sign](*operands)

    def of_macro(self, macro: Macro, items: dict[str, Any]) -> Any:
        values = self.of(macro.range, items)
        if kind(values) not in ("list", "map"):
            return ERROR
        if isinstance(values, dict):
            values = in_byte_order(values)
        turns = [self.turn(macro, items, value) for value in values]
        return operations.MACROS[macro.word](turns)

    def turn(self, macro: Macro, items: dict[str, Any], value: Any) -> tuple[Any, ...]:
        """What the predicate is for an item, and what is kept of it."""
        self.costs.turn()
        inner = {**items, macro.name: value}
        truth = True if macro.predicate is None else self.of(macro.predicate, inner)
        kept = value
        if macro.word == "map":
            kept = self.of(macro.transform, inner) if truth is True else None
        if macro.word in ("map", "filter") and truth is True:
            self.costs.keep(kept)
        return truth, kept
