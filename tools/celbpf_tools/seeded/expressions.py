"""Expressions of a kind that is asked for: mostly ones that the type checker takes.

An expression is made as its text with its level: how tightly it binds, so that brackets stand where they
have to, and now and then where they need not.
"""

from typing import Any

from .texts import INTS, TEXTS, int_literal, text_literal

TERNARY, OR, AND, RELATION, SUM, PRODUCT, UNARY, MEMBER = range(8)
KINDS = ["bool", "int", "text", "list", "map"]
# where a review's documents mostly have a value of the kind
PATHS = {
    "bool": ["object.spec.paused", "params.strict", "request.dryRun", "oldObject.spec.paused"],
    "int": [
        "object.spec.replicas", "object.spec.replicas", "oldObject.spec.replicas", "params.most",
        "object.metadata.generation", "object.spec.ports[0]", "object.spec.limits.cpu",
        "params.limits['cpu']",
    ],
    "text": [
        "object.metadata.name", "object.metadata.labels.app", "object.metadata.labels['team']", "object.kind",
        "request.operation", "request.userInfo.username", "params.prefix", "object.spec.image",
        "namespaceObject.metadata.name", "namespaceObject.metadata.labels.tier", "object.spec.args[1]",
        "object.metadata.annotations['example.com/owner']", "oldObject.metadata.name",
    ],
    "list": [
        "object.spec.ports", "object.spec.args", "object.spec.containers", "params.names",
        "request.userInfo.groups", "object.spec.containers", "oldObject.spec.ports",
    ],
    "map": [
        "object", "object.metadata", "object.metadata.labels", "object.spec", "object.spec.limits", "params",
        "namespaceObject.metadata.labels", "oldObject", "request", "object.metadata.annotations",
        "object.spec.containers[0]",
    ],
}
# where a review's documents mostly have a list of items of the kind, or a map, whose keys are texts
RANGES = {
    "bool": ["[true, false]", "[object.spec.paused, params.strict]"],
    "int": [
        "object.spec.ports", "object.spec.ports", "oldObject.spec.ports", "[1, 2, object.spec.replicas]",
    ],
    "text": [
        "object.spec.args", "params.names", "request.userInfo.groups", "object.metadata.labels",
        "object.spec", "object.spec.limits", "namespaceObject.metadata.labels",
    ],
    "list": ["[object.spec.ports, object.spec.args]", "object.spec.containers.map(c, c.args)"],
    "map": [
        "object.spec.containers", "object.spec.containers", "oldObject.spec.containers",
        "[object, oldObject]",
    ],
}
MISSING = [
    "object.none", "object.spec.replicas.none", "params.none.none", "object['none']", "oldObject.spec[0]",
]
FIELDS = ["name", "image", "port", "app", "team", "tier", "labels", "spec", "replicas", "cpu", "none", "all"]
ITEM_FIELDS = {
    "bool": ["privileged"], "int": ["port"], "text": ["name", "image"], "list": ["args"], "map": ["env"],
}
NAMES = ["x", "y", "c", "k", "item", "r", "all", "e"]


class Expressions:
    """Makes expressions that may use these variables, a dict from names to kinds, and mostly these roots."""

    def __init__(self, numbers: Any, variables: dict[str, str], roots: list[str]):
        self.numbers = numbers
        self.variables = variables
        self.roots = roots
        # the iteration names in force, with the kinds that their items mostly have
        self.names: list[tuple[str, str]] = []

    def text(self, kind: str, room: int) -> str:
        """The text of an expression of a kind, with at most so many nodes above one another."""
        made, _ = self.make(kind, room)
        if self.numbers.one_in(30):
            made = self.numbers.pick([f" {made}", f"{made}\n", f"// why\n{made}", f"{made} // why"])
        return made

    def make(self, kind: str, room: int) -> tuple[str, int]:
        """The text and the level of an expression."""
        if self.numbers.one_in(250):
            kind = self.numbers.pick(KINDS)
        if room == 0 or self.numbers.one_in(6):
            return self.leaf(kind)
        form = self.numbers.pick(FORMS["any" if self.numbers.one_in(8) else kind])
        return form(self, kind, room - 1)

    def part(self, kind: str, room: int, level: int) -> str:
        """The text of a part that has to bind as tightly as this."""
        made, given = self.make(kind, room)
        if given < level or self.numbers.one_in(25):
            return self.numbers.pick(["({})", "({})", "( {} )"]).format(made)
        return made

    def blank(self) -> str:
        return "" if self.numbers.one_in(8) else self.numbers.pick([" ", " ", " ", " ", "  ", "\n"])

    def between(self, left: str, sign: str, right: str) -> str:
        """Two parts with an operator between them."""
        blank = self.blank() if sign != "in" else " "
        return f"{left}{blank}{sign}{blank}{right}"

    # leaves

    def leaf(self, kind: str) -> tuple[str, int]:
        """A literal, a path, an iteration name or a variable."""
        chosen = self.numbers.below(12)
        items = self.items_of(kind) if chosen < 6 else []
        if items:
            return self.numbers.pick(items), MEMBER
        if chosen < 6 and kind in self.variables.values():
            known = [name for name, given in self.variables.items() if given == kind]
            return f"variables.{self.numbers.pick(known)}", MEMBER
        if chosen < 7:
            return self.path(kind), MEMBER
        return self.literal(kind), MEMBER

    def path(self, kind: str) -> str:
        """A path from a root, or what may stand nowhere."""
        paths = MISSING if self.numbers.one_in(30) else PATHS[kind]
        known = [path for path in paths if path.split(".")[0].split("[")[0] in self.roots]
        return self.numbers.pick(known) if known else self.literal(kind)

    def items_of(self, kind: str) -> list[str]:
        """The iteration names in force, and the fields of their items, that mostly are of a kind."""
        found = []
        for name, given in self.names:
            if given == kind or self.numbers.one_in(20):
                found.append(name)
            elif given == "map":
                found += [f"{name}.{field}" for field in ITEM_FIELDS[kind]]
                found += [f"has({name}.{self.numbers.pick(FIELDS)})"] if kind == "bool" else []
        return found

    def literal(self, kind: str) -> str:
        numbers = self.numbers
        if kind == "bool":
            return numbers.pick(["true", "true", "false"])
        if kind == "int":
            return int_literal(numbers, numbers.pick(INTS))
        if kind == "text":
            return text_literal(numbers, numbers.pick(TEXTS))
        if kind == "list":
            return self.list_literal(numbers.pick(["int", "text", "bool"]), 0)
        return self.map_literal("any", 0)

    def any(self, room: int, level: int) -> str:
        """A part of any kind."""
        if self.numbers.one_in(12):
            return "null"
        return self.part(self.numbers.pick(KINDS), room, level)

    def list_literal(self, kind: str, room: int) -> str:
        items = [self.part(kind, room, TERNARY) for _ in range(self.numbers.below(4))]
        comma = self.numbers.pick(["", "", "", "", ","])
        return f"[{', '.join(items)}{comma}]"

    def map_literal(self, _: str, room: int) -> str:
        entries = []
        for _place in range(self.numbers.below(4)):
            key = text_literal(self.numbers, self.numbers.pick(FIELDS))
            if room and self.numbers.one_in(8):
                key = self.part("text", room - 1, TERNARY)
            entries.append(f"{key}: {self.any(room, TERNARY)}")
        comma = self.numbers.pick(["", "", "", "", ","])
        return f"{{{', '.join(entries)}{comma}}}"

    # forms of every kind

    def ternary(self, kind: str, room: int) -> tuple[str, int]:
        condition = self.part("bool", room, OR)
        chosen, other = self.part(kind, room, OR), self.part(kind, room, TERNARY)
        return f"{condition} ? {chosen} : {other}", TERNARY

    def of_map(self, kind: str, room: int) -> tuple[str, int]:
        """What a map has under a key, which it mostly has."""
        field = self.numbers.pick(FIELDS)
        target = f"{{'{field}': {self.part(kind, room, TERNARY)}, 'a': {self.any(0, TERNARY)}}}"
        if self.numbers.one_in(4):
            target = self.part("map", room, MEMBER)
        if self.numbers.one_in(2):
            return f"{target}[{text_literal(self.numbers, field)}]", MEMBER
        return f"{target}.{field}", MEMBER

    def of_list(self, kind: str, room: int) -> tuple[str, int]:
        """An item of a list, which it mostly has."""
        if self.numbers.one_in(4):
            return f"{self.part('list', room, MEMBER)}[{self.part('int', 0, TERNARY)}]", MEMBER
        items = f"[{self.part(kind, room, TERNARY)}, {self.any(0, TERNARY)}]"
        return f"{items}[{self.numbers.pick('0001')}]", MEMBER

    def dynamic(self, kind: str, room: int) -> tuple[str, int]:
        wanted = self.numbers.pick(KINDS) if self.numbers.one_in(8) else kind
        return f"dyn({self.part(wanted, room, TERNARY)})", MEMBER

    # bools

    def logic(self, _: str, room: int) -> tuple[str, int]:
        if self.numbers.one_in(2):
            return self.between(self.part("bool", room, AND), "&&", self.part("bool", room, RELATION)), AND
        return self.between(self.part("bool", room, OR), "||", self.part("bool", room, AND)), OR

    def no(self, _: str, room: int) -> tuple[str, int]:
        return self.numbers.pick(["!", "!", "!!"]) + self.part("bool", room, MEMBER), UNARY

    def equality(self, _: str, room: int) -> tuple[str, int]:
        kind = self.numbers.pick(KINDS)
        other = "null" if self.numbers.one_in(40) else self.part(kind, room, SUM)
        sign = self.numbers.pick(["==", "!="])
        return self.between(self.part(kind, room, RELATION), sign, other), RELATION

    def ordering(self, _: str, room: int) -> tuple[str, int]:
        kind = self.numbers.pick(["int", "int", "int", "text", "bool"])
        sign = self.numbers.pick(["<", "<=", ">", ">="])
        return self.between(self.part(kind, room, SUM), sign, self.part(kind, room, SUM)), RELATION

    def membership(self, _: str, room: int) -> tuple[str, int]:
        if self.numbers.one_in(3):
            return self.between(self.part("text", room, SUM), "in", self.part("map", room, SUM)), RELATION
        return self.between(self.any(room, SUM), "in", self.part("list", room, SUM)), RELATION

    def presence(self, _: str, room: int) -> tuple[str, int]:
        return f"has({self.part('map', room, MEMBER)}.{self.numbers.pick(FIELDS)})", MEMBER

    def text_test(self, _: str, room: int) -> tuple[str, int]:
        method = self.numbers.pick(["startsWith", "endsWith", "contains"])
        return f"{self.part('text', room, MEMBER)}.{method}({self.part('text', room, TERNARY)})", MEMBER

    def quantifier(self, _: str, room: int) -> tuple[str, int]:
        word = self.numbers.pick(["all", "exists", "exists_one"])
        return self.macro(word, ["bool"], room), MEMBER

    # ints

    def sum(self, kind: str, room: int) -> tuple[str, int]:
        sign = self.numbers.pick(["+", "-"]) if kind == "int" else "+"
        return self.between(self.part(kind, room, SUM), sign, self.part(kind, room, PRODUCT)), SUM

    def product(self, _: str, room: int) -> tuple[str, int]:
        sign = self.numbers.pick(["*", "/", "%"])
        return self.between(self.part("int", room, PRODUCT), sign, self.part("int", room, UNARY)), PRODUCT

    def negative(self, _: str, room: int) -> tuple[str, int]:
        return self.numbers.pick(["-", "-", "--", "- "]) + self.part("int", room, MEMBER), UNARY

    def count(self, _: str, room: int) -> tuple[str, int]:
        target = self.part(self.numbers.pick(["text", "list", "map"]), room, MEMBER)
        return (f"size({target})" if self.numbers.one_in(2) else f"{target}.size()"), MEMBER

    # texts, lists and maps

    def decimal(self, _: str, room: int) -> tuple[str, int]:
        return f"string({self.part(self.numbers.pick(['int', 'int', 'text']), room, TERNARY)})", MEMBER

    def items(self, _: str, room: int) -> tuple[str, int]:
        return self.list_literal(self.numbers.pick(KINDS), room), MEMBER

    def entries(self, kind: str, room: int) -> tuple[str, int]:
        return self.map_literal(kind, room), MEMBER

    def filtered(self, _: str, room: int) -> tuple[str, int]:
        return self.macro("filter", ["bool"], room), MEMBER

    def mapped(self, _: str, room: int) -> tuple[str, int]:
        kind = self.numbers.pick(KINDS)
        kinds = ["bool", kind] if self.numbers.one_in(3) else [kind]
        return self.macro("map", kinds, room), MEMBER

    def range_of(self, kind: str, room: int) -> str:
        """What a macro goes over, whose items are mostly of a kind."""
        chosen = self.numbers.below(8)
        if chosen == 0:
            return self.part(self.numbers.pick(["list", "map"]), room, MEMBER)
        if chosen == 1:
            return self.list_literal(kind, room)
        if chosen == 2 and room:
            return self.macro("map", [kind], room - 1)
        return self.numbers.pick(RANGES[kind])

    def macro(self, word: str, kinds: list[str], room: int) -> str:
        """A macro whose parts behind the iteration name are of these kinds."""
        given = self.numbers.pick(["bool", "int", "int", "text", "text", "list", "map", "map"])
        name, target = self.numbers.pick(NAMES), self.range_of(given, room)
        self.names.append((name, given))
        parts = [self.part(kind, room, TERNARY) for kind in kinds]
        self.names.pop()
        return f"{target}.{word}({name}, {', '.join(parts)})"


FORMS = {
    "any": [Expressions.ternary, Expressions.of_map, Expressions.of_list, Expressions.dynamic],
    "bool": [
        Expressions.logic, Expressions.logic, Expressions.logic, Expressions.no, Expressions.equality,
        Expressions.equality, Expressions.ordering, Expressions.ordering, Expressions.ordering,
        Expressions.membership, Expressions.membership, Expressions.presence, Expressions.presence,
        Expressions.text_test, Expressions.text_test, Expressions.quantifier, Expressions.quantifier,
        Expressions.quantifier,
    ],
    "int": [
        Expressions.sum, Expressions.sum, Expressions.product, Expressions.product, Expressions.negative,
        Expressions.count, Expressions.count,
    ],
    "text": [Expressions.sum, Expressions.sum, Expressions.decimal, Expressions.decimal],
    "list": [
        Expressions.sum, Expressions.items, Expressions.filtered, Expressions.mapped, Expressions.mapped,
        Expressions.filtered,
    ],
    "map": [Expressions.entries],
}
