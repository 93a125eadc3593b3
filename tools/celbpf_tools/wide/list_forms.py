"""Forms of expressions that need the indices of lists: macros of two names, computed optional indices, methods of lists."""

from ..seeded.expressions import MEMBER, SUM, TERNARY
from .optional_forms import OptionalForms

# names of roots, which an iteration name may hide
HIDING = ["request", "object", "oldObject", "params", "namespaceObject", "variables"]
# ranges of macros with two names whose keys or values are mostly of these kinds
PAIRS = [
    ("object.metadata.labels", "text", "text"), ("object.spec.limits", "text", "int"),
    ("object.spec.args", "int", "text"), ("object.spec.ports", "int", "int"),
    ("object.spec.containers", "int", "map"), ("params.names", "int", "text"),
    ("object.metadata.annotations", "text", "text"), ("[3, 1, 2]", "int", "int"), ("{'b': 1, 'a': 2}", "text", "int"),
]
LISTS = ["object.spec.ports", "object.spec.args", "params.names", "request.userInfo.groups", "[2, 1, 2]", "['b', 'a']"]
NEITHER = ["object.spec.replicas", "object.metadata.name", "object.spec.none", "oldObject"]
INDEXED = ["isSorted()", "indexOf({})", "lastIndexOf({})", "slice({}, {})", "reverse()", "distinct()"]


class ListForms(OptionalForms):
    """Lists and maps by their indices and keys."""

    def kept(self, kinds: tuple[str, ...]) -> list[str]:
        """The iteration names, fields of their items and variables that mostly are of these kinds."""
        names = [name for name, given in self.names if given in kinds]
        fields = [f"{name}.{field}" for name, given in self.names if given == "map" for field in ("args", "env")]
        return [*names, *fields, *(f"variables.{name}" for name, given in self.variables.items() if given in kinds)]

    def listing(self, room: int) -> str:
        """What mostly is a list, as a text that binds as a member does."""
        numbers, known = self.numbers, self.kept(("list",))
        if known and numbers.one_in(3):
            return numbers.pick(known)
        if room <= 0 or numbers.one_in(2):
            return numbers.pick(LISTS)
        return self.part("list", room - 1, MEMBER)

    def pairs(self, room: int) -> tuple[str, str, str]:
        """The range of a macro of two names, and the kinds that its keys and values mostly are of."""
        numbers, known = self.numbers, self.kept(("list", "map"))
        if numbers.one_in(12):
            return numbers.pick(NEITHER), "int", "text"
        if known and numbers.one_in(3):
            return numbers.pick(known), numbers.pick(["int", "text"]), "text"
        target, of_key, of_value = numbers.pick(PAIRS)
        if room > 0 and numbers.one_in(3):
            target = numbers.pick(self.around(target, room - 1))
        return target, of_key, of_value

    def around(self, target: str, room: int) -> list[str]:
        """Forms of what mostly has the items of a list or a map, or some of them."""
        least = "{}" if "labels" in target or "limits" in target else "[]"
        kept = f"{target}.filter(e, {self.part('bool', room, TERNARY)})"
        both = f"({target} + {self.numbers.pick(LISTS)})"
        chosen = f"({self.part('bool', room, SUM)} ? {target} : {least})"
        items = [str(place) for place in range(14 + self.numbers.below(6))]
        return [
            kept, both, chosen, f"dyn({target})", f"{target}.map(e, e)", f"[{', '.join(items)}]", f"optional.of({target}).orValue({least})",
            f"{target}.transformList(a, b, b)", f"{target}.{self.numbers.pick(['reverse()', 'distinct()', 'slice(0, 2)'])}",
        ]

    def with_key(self, key: tuple[str, str], kind: str, made: str) -> str:
        """A part of a macro that mostly uses the first of its two names."""
        numbers, (name, of_key) = self.numbers, key
        if numbers.one_in(3):
            return made
        test = f"{name} {numbers.pick(['==', '!=', '<', '>='])} {self.literal(of_key)}"
        if kind == "bool":
            return f"{test} {numbers.pick(['&&', '||'])} ({made})"
        if kind == of_key:
            return f"{name} + ({made})"
        return f"[{name}] + ({made})" if kind == "list" else f"{test} ? ({made}) : ({made})"

    def place(self, room: int) -> str:
        """An index, or a key: mostly one that is computed."""
        numbers, known = self.numbers, [name for name, given in self.names if given in ("int", "text")]
        if known and numbers.one_in(2):
            return numbers.pick(known)
        if numbers.one_in(4):
            return f"{self.listing(0)}.size() - {numbers.pick('012')}"
        return self.part(numbers.pick(["int", "int", "text", "text", "text", "bool"]), max(room, 0), TERNARY)

    def computed_index(self, kind: str, room: int) -> str:
        """`e[?k]` with an index or a key that is computed, or a step from there."""
        numbers = self.numbers
        target = self.listing(room) if numbers.one_in(2) else self.part("map", room, MEMBER)
        if numbers.one_in(3):
            return f"{self.optional(numbers.pick(['list', 'map']), room)}[{self.place(room)}]"
        step = f".{numbers.pick(['', '?'])}name" if numbers.one_in(4) else ""
        return f"{target}[?{self.place(room)}]{step}"

    def list_method(self, form: str, room: int) -> str:
        """A method of what mostly is a list."""
        given = [self.any(room, TERNARY) if "ndexOf" in form else self.place(room) for _ in range(form.count("{}"))]
        return f"{self.listing(room)}.{form.format(*given)}"

    def sorted_list(self, _: str, room: int) -> tuple[str, int]:
        return self.list_method(INDEXED[0], room), MEMBER

    def place_in_list(self, _: str, room: int) -> tuple[str, int]:
        return self.list_method(self.numbers.pick(INDEXED[1:3]), room), MEMBER

    def other_list(self, _: str, room: int) -> tuple[str, int]:
        return self.list_method(self.numbers.pick(INDEXED[3:]), room), MEMBER


ListForms.optionals = [*OptionalForms.optionals, ListForms.computed_index, ListForms.computed_index]
