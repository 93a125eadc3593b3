"""Forms of expressions that are optionals, or that take them."""

from typing import Any

from ..seeded.expressions import FIELDS, KINDS, MEMBER, OR, PATHS, RELATION, TERNARY, Expressions
from ..seeded.texts import text_literal

# a range whose last item, or a map whose entry, is mostly of a kind
LISTS = {"text": "object.spec.args", "int": "object.spec.ports", "map": "object.spec.containers"}
MAPS = ["object.metadata.labels", "object.spec.limits", "object.metadata.annotations", "params.limits", "object.spec"]


class OptionalForms(Expressions):
    """Optionals of a kind: each is a text that binds as a member does."""

    # the forms of optionals
    optionals: list[Any] = []

    def optional(self, kind: str, room: int) -> str:
        """An optional whose value is mostly of a kind."""
        numbers = self.numbers
        known = [name for name, given in self.variables.items() if given == f"optional {kind}"]
        if known and numbers.one_in(6):
            return f"variables.{numbers.pick(known)}"
        if room <= 0 or numbers.one_in(2):
            return self.optional_step(kind)
        return numbers.pick(self.optionals)(self, kind, room - 1)

    def optional_step(self, kind: str) -> str:
        """A path with a `?` in it."""
        numbers = self.numbers
        path = numbers.pick(PATHS[kind])
        if numbers.one_in(12):
            path = numbers.pick(["object.spec.args.x", "object.none.x", "object.spec.replicas.x", "object.spec.none"])
        head, bracket, last = path.partition("[")
        if bracket and not numbers.one_in(3):
            return f"{head}[?{last}"
        steps = head.split(".")
        if len(steps) == 1:
            return f"{path}.?{numbers.pick(FIELDS)}"
        place = 1 + numbers.below(len(steps) - 1)
        steps[place] = "?" + steps[place]
        if numbers.one_in(6):
            steps[-1] = "?" + steps[-1].lstrip("?")
        return ".".join(steps) + bracket + last

    def optional_index(self, kind: str, room: int) -> str:
        """`e[?k]` of a list or a map."""
        numbers = self.numbers
        if numbers.one_in(2) and kind in LISTS:
            return f"{LISTS[kind]}[?{self.part('int', 0, TERNARY)}]"
        key = self.part(numbers.pick(["text", "text", "text", "int"]), 0, TERNARY)
        return f"{numbers.pick(MAPS)}[?{key}]"

    def optional_field(self, kind: str, room: int) -> str:
        """A field or an index of an optional."""
        numbers, inner = self.numbers, self.optional(self.numbers.pick(["map", "map", "list"]), room)
        if numbers.one_in(3):
            return f"{inner}[{self.part(numbers.pick(['text', 'int']), 0, TERNARY)}]"
        return f"{inner}.{numbers.pick(['', '', '?'])}{numbers.pick(FIELDS)}"

    def optional_of(self, kind: str, room: int) -> str:
        word = self.numbers.pick(["of", "of", "ofNonZeroValue"])
        return f"optional.{word}({self.part(kind, room, TERNARY)})"

    def optional_none(self, kind: str, room: int) -> str:
        return "optional.none()"

    def optional_map(self, kind: str, room: int) -> str:
        given = self.numbers.pick(KINDS)
        return self.under_optional("optMap", given, lambda: self.part(kind, room, TERNARY), room)

    def optional_flat_map(self, kind: str, room: int) -> str:
        given = self.numbers.pick(["map", "map", "list", "text"])
        return self.under_optional("optFlatMap", given, lambda: self.optional(kind, room), room)

    def under_optional(self, word: str, given: str, make: Any, room: int) -> str:
        """A macro of an optional whose value is mostly of the given kind."""
        target, name = self.optional(given, room), self.iteration_name()
        self.names.append((name, given))
        body = make()
        if word == "optFlatMap" and given == "map" and self.numbers.one_in(2):
            body = f"{name}.?{self.numbers.pick(FIELDS)}"
        self.names.pop()
        return f"{target}.{word}({name}, {body})"

    def iteration_name(self) -> str:
        raise NotImplementedError

    def optional_or(self, kind: str, room: int) -> str:
        return f"{self.optional(kind, room)}.or({self.optional(kind, room)})"

    def optional_choice(self, kind: str, room: int) -> str:
        condition = self.part("bool", room, OR)
        return f"({condition} ? {self.optional(kind, room)} : {self.optional(kind, room)})"

    def optional_end(self, kind: str, room: int) -> str:
        target = LISTS.get(kind, "[]") if self.numbers.one_in(2) else self.part("list", room, MEMBER)
        return f"{target}.{self.numbers.pick(['first', 'last'])}()"

    # what takes optionals

    def or_value(self, kind: str, room: int) -> tuple[Any, ...]:
        return f"{self.optional(kind, room)}.orValue({self.part(kind, room, TERNARY)})", MEMBER

    def value(self, kind: str, room: int) -> tuple[Any, ...]:
        return f"{self.optional(kind, room)}.value()", MEMBER

    def has_value(self, _: str, room: int) -> tuple[Any, ...]:
        return f"{self.optional(self.numbers.pick(KINDS), room)}.hasValue()", MEMBER

    def equal_optionals(self, _: str, room: int) -> tuple[Any, ...]:
        kind, sign = self.numbers.pick(KINDS), self.numbers.pick(["==", "!="])
        return self.between(self.optional(kind, room), sign, self.optional(kind, room)), RELATION

    def presence_in_optional(self, _: str, room: int) -> tuple[Any, ...]:
        target = self.optional("map", room)
        return f"has({target}.{self.numbers.pick(FIELDS)})", MEMBER

    def optional_items(self, _: str, room: int) -> tuple[Any, ...]:
        """A list literal with optional items."""
        kind, items = self.numbers.pick(KINDS), []
        for _place in range(1 + self.numbers.below(3)):
            is_optional = self.numbers.one_in(2)
            items.append("?" + self.optional(kind, room) if is_optional else self.part(kind, room, TERNARY))
        return f"[{', '.join(items)}]", MEMBER

    def optional_entries(self, _: str, room: int) -> tuple[Any, ...]:
        """A map literal with at most three optional entries."""
        numbers, entries = self.numbers, []
        for place in range(1 + numbers.below(3)):
            key = text_literal(numbers, numbers.pick(FIELDS) if numbers.one_in(20) else f"{FIELDS[place]}{place}")
            if numbers.one_in(2):
                entries.append(f"?{key}: {self.optional(numbers.pick(KINDS), room)}")
            else:
                entries.append(f"{key}: {self.any(room, TERNARY)}")
        return f"{{{', '.join(entries)}}}", MEMBER


OptionalForms.optionals = [
    OptionalForms.optional_index, OptionalForms.optional_index, OptionalForms.optional_field,
    OptionalForms.optional_field, OptionalForms.optional_of, OptionalForms.optional_none,
    OptionalForms.optional_map, OptionalForms.optional_flat_map, OptionalForms.optional_or,
    OptionalForms.optional_choice, OptionalForms.optional_end,
]
