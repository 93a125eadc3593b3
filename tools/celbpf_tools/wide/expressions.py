"""Wide expressions of a kind that is asked for: mostly ones that have a kind, beside those of the profile."""

from typing import Any

from ..seeded.expressions import KINDS, MEMBER, NAMES, RELATION, SUM, TERNARY, UNARY
from ..seeded.texts import text_literal
from .list_forms import HIDING, LISTS, NEITHER, ListForms
from .typed_forms import TypedForms


class WideExpressions(ListForms, TypedForms):
    """Makes wide expressions; `share` of a hundred parts have a form that the profile lacks, which is one of `forms`."""

    def __init__(self, numbers: Any, variables: dict[str, Any], roots: list[Any], share: int, forms: Any = None):
        super().__init__(numbers, variables, roots)
        self.share = share
        self.forms: dict[str, list[Any]] = forms or FORMS

    def widens(self) -> bool:
        """Whether the next choice is for a form that the profile lacks."""
        return self.numbers.below(100) < self.share

    def make(self, kind: str, room: int) -> tuple[str, int]:
        numbers = self.numbers
        if room <= 0 or not self.widens():
            return super().make(kind, max(room, 0))
        form = numbers.pick(ANY if numbers.one_in(4) else self.forms[kind])
        return form(self, kind, room - 1)

    def path(self, kind: str) -> str:
        """A path, now and then with a dot before it."""
        made = super().path(kind)
        return f".{made}" if self.numbers.one_in(8) and self.widens() and made[0].isalpha() else made

    def iteration_name(self) -> str:
        names = HIDING if self.numbers.one_in(4) and self.widens() else NAMES
        return self.numbers.pick(names)

    def macro(self, word: str, kinds: list[Any], room: int) -> str:
        """A macro with one name, or with two."""
        if not self.widens():
            return self.over_one(word, kinds, room)
        return self.over_pairs({"filter": "all", "map": "transformList"}.get(word, word), kinds, room)

    def over_one(self, word: str, kinds: list[Any], room: int) -> str:
        numbers = self.numbers
        given = numbers.pick(["bool", "int", "int", "text", "text", "list", "map", "map"])
        name, target = self.iteration_name(), self.range_of(given, room)
        if numbers.one_in(12):
            target = numbers.pick(NEITHER)
        self.names.append((name, given))
        parts = [self.part(kind, room, TERNARY) for kind in kinds]
        if numbers.one_in(8) and name not in HIDING:
            parts[-1] = f"({parts[-1]})"
        self.names.pop()
        return f"{target}.{word}({name}, {', '.join(parts)})"

    def over_pairs(self, word: str, kinds: list[Any], room: int) -> str:
        """A macro with a name for keys or indices, and one for values."""
        numbers = self.numbers
        target, of_key, of_value = self.pairs(room)
        if word == "exists_one" and numbers.one_in(2):
            word = "existsOne"
        key, value = numbers.pick(["k", "i", "x", self.iteration_name()]), numbers.pick(["v", "y", self.iteration_name()])
        if key == value:
            value = "w"
        self.names += [(key, of_key), (value, of_value)]
        parts = [self.with_key((key, of_key), kind, self.part(kind, room, TERNARY)) for kind in kinds]
        del self.names[-2:]
        return f"{target}.{word}({key}, {value}, {', '.join(parts)})"

    # forms of every kind

    def hidden_root(self, kind: str, room: int) -> tuple[str, int]:
        """A macro whose name hides a root that the dot finds."""
        text = f"{{0}}.{self.numbers.pick(['spec', 'metadata', 'kind'])}"
        made = f"[object.spec].map(object, [.{text.format('object')}, {self.part(kind, room, TERNARY)}])"
        return f"{made}[0][{self.numbers.pick('001')}]", MEMBER

    def quoted(self, kind: str, room: int) -> tuple[str, int]:
        """A field in back quotes."""
        field = self.numbers.pick(["a-b", "example.com/owner", "app", "in", "a b"])
        target = f"{{'{field}': {self.part(kind, room, TERNARY)}}}"
        if self.numbers.one_in(3):
            target = self.numbers.pick(["object.metadata.labels", "object.metadata.annotations"])
        return f"{target}.`{field}`", MEMBER

    def end_of_list(self, kind: str, room: int) -> tuple[str, int]:
        target = self.numbers.pick(LISTS)
        return f"{target}.{self.numbers.pick(['min', 'max'])}()", MEMBER

    # bools

    def quantifier_of_pairs(self, _: str, room: int) -> tuple[str, int]:
        return self.over_pairs(self.numbers.pick(["all", "exists", "exists_one"]), ["bool"], room), MEMBER

    def in_empty(self, _: str, room: int) -> tuple[str, int]:
        return self.between(self.any(room, SUM), "in", "[]"), RELATION

    def below_uint(self, _: str, room: int) -> tuple[str, int]:
        sign = self.numbers.pick(["==", "!=", "<", "<=", ">", ">="])
        return self.between(self.part("int", room, SUM), sign, self.numbers.pick(["0u", "3u", "0x10u"])), RELATION

    def list_tested(self, _: str, room: int) -> tuple[str, int]:
        numbers = self.numbers
        left, right = (numbers.pick(LISTS) if numbers.one_in(2) else self.part("list", room, TERNARY) for _ in "ab")
        return f"sets.{numbers.pick(['contains', 'intersects', 'equivalent'])}({left}, {right})", MEMBER

    def presence_quoted(self, _: str, room: int) -> tuple[str, int]:
        field = self.numbers.pick(["example.com/owner", "app", "a-b"])
        target = self.numbers.pick(["object.metadata.labels", "oldObject", "object.spec.none", "object.spec.args[0]"])
        return f"has({target}.`{field}`)", MEMBER

    # ints, texts, lists

    def summed(self, _: str, room: int) -> tuple[str, int]:
        return f"{self.numbers.pick(['object.spec.ports', '[1, 2]', '[]', 'object.spec.args'])}.sum()", MEMBER

    def doubled(self, _: str, room: int) -> tuple[str, int]:
        return f"--{self.part('int', room, MEMBER)}", UNARY

    def text_of_any(self, _: str, room: int) -> tuple[str, int]:
        kind = self.numbers.pick(["bool", "bool", "text", "int"])
        return f"string({self.part(kind, room, TERNARY)})", MEMBER

    def joined(self, _: str, room: int) -> tuple[str, int]:
        separator = text_literal(self.numbers, self.numbers.pick([",", "", "; "]))
        target = self.numbers.pick(["object.spec.args", "params.names", "['a', 'b']", "object.spec.ports"])
        return f"{target}.join({separator})", MEMBER

    def long_text(self, _: str, room: int) -> tuple[str, int]:
        """A text in three quotes."""
        quote, said = self.numbers.pick(["'''", '"""']), self.numbers.pick(["it's", "", 'a"b', "a\nb"])
        return self.numbers.pick(["", "r", "R"]) + quote + said + quote, MEMBER

    def transformed(self, _: str, room: int) -> tuple[str, int]:
        kind = self.numbers.pick(KINDS)
        kinds = ["bool", kind] if self.numbers.one_in(3) else [kind]
        return self.over_pairs("transformList", kinds, room), MEMBER


E = WideExpressions
ANY: list[Any] = [E.or_value, E.or_value, E.or_value, E.value, E.hidden_root, E.quoted]
# forms of optionals, lists and maps
LIST_FORMS: dict[str, list[Any]] = {
    "bool": [
        E.has_value, E.has_value, E.equal_optionals, E.equal_optionals, E.presence_in_optional,
        *[E.quantifier_of_pairs] * 5, E.quantifier, E.in_empty, E.below_uint, E.list_tested, E.sorted_list, E.presence_quoted,
        E.logic, E.presence,
    ],
    "int": [E.place_in_list, E.doubled, E.or_value, E.or_value, E.end_of_list, E.sum],
    "text": [E.text_of_any, E.long_text, E.or_value, E.or_value, E.end_of_list],
    "list": [
        E.optional_items, E.optional_items, E.other_list, *[E.transformed] * 4, E.filtered, E.mapped, E.or_value,
    ],
    "map": [E.optional_entries, E.optional_entries, E.or_value],
}
# beside these functions of texts, and typed values
OTHER_FORMS: dict[str, list[Any]] = {
    "bool": [E.compared_typed, E.compared_typed, *[E.bool_of_text] * 4, E.type_tested, E.matched],
    "int": [*[E.int_of_typed] * 5, E.place_of, E.summed],
    "text": [E.joined, E.cut, E.cut, E.formatted, E.found],
    "list": [E.cut, E.found],
    "map": [],
}
FORMS = {kind: [*forms, *OTHER_FORMS[kind]] for kind, forms in LIST_FORMS.items()}
