"""Whether the texts that functions of texts take are known from the documents: W7 where they are not."""

from typing import Any, Callable

from .calls import format_tested, qualified
from .kinds import is_type_test, is_variables
from .refused import refuse
from .texts import METHODS as OF_TEXTS
from .trees import Call, Field, Has, Index, ListLiteral, Literal, Macro, MapLiteral, Method, Name, Operation, Ternary, Uint, bodies, parts

FUNCTIONS = (
    "int", "isQuantity", "quantity", "duration", "timestamp", "isSemver", "semver", "isIP", "ip", "isCIDR",
    "cidr",
)
METHODS = (*OF_TEXTS, "matches", "find", "findAll")
# the functions of texts whose results are no texts that others could take
TYPED = ("quantity", "duration", "timestamp", "semver", "ip", "cidr")
OF_ITEMS = ("min", "max", "first", "last")
KINDS_WITH_TEXTS = ("int", "string", "list", "map")


LISTS = ("split", "findAll", "distinct", "reverse", "slice")


class Reach:
    """What is reached; names are bound to functions that say whether their values are.

    `variables` is a dict from names to whether the values of their expressions are known, `lists` one from names to
    whether they are lists by their form.
    """

    def __init__(self, variables: dict[str, Any], lists: dict[str, bool]):
        self.variables = variables
        self.lists = lists

    def is_list(self, tree: Any, names: dict[str, Any]) -> bool:
        """Whether a tree is a list by its form."""
        if isinstance(tree, Macro):
            return tree.word in ("map", "filter", "transformList")
        if isinstance(tree, Field) and is_variables(tree.operand, names):
            return self.lists.get(tree.name, False)
        if isinstance(tree, Ternary):
            return self.is_list(tree.chosen, names) and self.is_list(tree.other, names)
        if isinstance(tree, Operation):
            return tree.sign == "+" and all(self.is_list(one, names) for one in tree.operands)
        return isinstance(tree, ListLiteral) or isinstance(tree, Method) and tree.method in LISTS

    def of(self, tree: Any, names: dict[str, Any]) -> bool:
        """Whether the values of a tree are known from the documents."""
        if isinstance(tree, (Literal, Uint, Has)):
            return True
        if isinstance(tree, Name):
            return tree.dotted or tree.name not in names or names[tree.name]()
        if isinstance(tree, Field) and is_variables(tree.operand, names):
            return self.variables[tree.name]
        if isinstance(tree, (Field, Index)):
            return self.of(tree.operand, names)
        if isinstance(tree, Ternary):
            return self.of(tree.chosen, names) and self.of(tree.other, names)
        if isinstance(tree, (ListLiteral, MapLiteral)):
            return all(self.of(part, names) for part in parts(tree))
        if isinstance(tree, Operation):
            return self.of_operation(tree, names)
        if isinstance(tree, Macro):
            return self.of_macro(tree, names)
        return self.of_call(tree, names)

    def of_operation(self, tree: Operation, names: dict[str, Any]) -> bool:
        if tree.sign in ("+", "-", "*") and len(tree.operands) == 2:
            return all(self.of(one, names) for one in tree.operands)
        # comparisons and logic are true or false
        return tree.sign in ("!", "&&", "||", "==", "!=", "<", "<=", ">", ">=", "in")

    def inner(self, tree: Macro, names: dict[str, Any]) -> dict[str, Any]:
        """The names inside a macro; a range keeps the names of its own place."""
        known: Callable[..., Any] = lambda: self.of(tree.range, names)
        return {**names, **dict.fromkeys(tree.names, known)}

    def of_macro(self, tree: Macro, names: dict[str, Any]) -> bool:
        if tree.word == "filter":
            return self.of(tree.range, names)
        if tree.transform is not None:
            return self.of(tree.transform, self.inner(tree, names))
        return False

    def of_call(self, tree: Any, names: dict[str, Any]) -> bool:
        given = [self.of(part, names) for part in parts(tree)]
        if isinstance(tree, Call):
            return tree.function in ("string", "size", "dyn", *FUNCTIONS) and all(given)
        name = qualified(tree)
        if name:
            return name.startswith("optional.") and all(given[1:])
        return tree.method in (*METHODS, *OF_ITEMS, "or", "orValue", "value", "size") and all(given)

    def demand(self, tree: Any, names: dict[str, Any], name: str) -> None:
        if not self.of(tree, names):
            refuse("W7", tree.place, name)

    def check(self, tree: Any, names: dict[str, Any]) -> None:
        """Refuses the first argument of a function of texts that is not known."""
        if isinstance(tree, Macro):
            self.check_macro(tree, names)
            return
        for part in parts(tree):
            self.check(part, names)
        if isinstance(tree, Call) and tree.function in FUNCTIONS:
            for argument in tree.arguments:
                self.demand(argument, names, tree.function)
        if isinstance(tree, Method):
            self.check_method(tree, names)
        if isinstance(tree, Operation) and is_type_test(tree, names):
            if tree.operands[1].name in KINDS_WITH_TEXTS:
                self.demand(tree.operands[0].arguments[0], names, "type")

    def check_method(self, tree: Method, names: dict[str, Any]) -> None:
        tested = format_tested(tree)
        if tested:
            self.demand(tested[1], names, tested[0])
        elif tree.method in METHODS and not self.is_list(tree.target, names):
            for part in parts(tree):
                self.demand(part, names, tree.method)

    def check_macro(self, tree: Macro, names: dict[str, Any]) -> None:
        self.check(tree.range, names)
        for part in bodies(tree):
            self.check(part, self.inner(tree, names))


def check(tree: Any, variables: dict[str, Any], lists: dict[str, bool]) -> tuple[bool, bool]:
    """Whether the values of a tree are known, and whether it is a list; W7 refuses an unknown argument of a function of texts."""
    reach = Reach(variables, lists)
    reach.check(tree, {})
    return reach.of(tree, {}), reach.is_list(tree, {})
