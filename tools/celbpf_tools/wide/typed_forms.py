"""Forms of expressions of typed values, and of functions of texts."""

from typing import Any

from ..seeded.expressions import MEMBER, RELATION, TERNARY, Expressions
from ..seeded.texts import text_literal
from . import documents
from .signatures import KINDS_TESTED, OF_DURATIONS, OF_TIMESTAMPS
from .texts import NAMED_FORMATS

# texts of each function's form, and the path that documents mostly have one at
FORMS: dict[str, tuple[list[Any], str]] = {
    "quantity": (documents.QUANTITIES, "object.spec.typed.cpu"),
    "duration": (documents.DURATIONS, "object.spec.typed.lasting"),
    "timestamp": (documents.TIMESTAMPS, "object.spec.typed.since"),
    "semver": (documents.SEMVERS, "object.spec.typed.version"),
    "ip": (documents.ADDRESSES, "object.spec.typed.address"),
    "cidr": (documents.BLOCKS, "object.spec.typed.block"),
    "int": (documents.WRITTEN, "object.spec.typed.written"),
    "bool": (documents.WRITTEN, "object.spec.typed.written"),
}
ORDERED = ("quantity", "duration", "timestamp", "semver")
TESTED = {"quantity": "isQuantity", "semver": "isSemver", "ip": "isIP", "cidr": "isCIDR"}
PATTERNS = [
    "^reg[.]io/[a-z]+:[0-9]+", "a", "", "^$", r"\\d+", "[0-9]+", "(?i)taco", "^(web|app)", "[^a-z]", "l{2}", "o$",
    r"\\bhello\\b", "(a|b)+", "h.*o", "[a-c]{1,3}?", "x?y?", "[[:alpha:]-]+",
]
SEPARATORS = ["", ",", ":", "/", " ", "l", "he", "a"]
PARTS = ["a", "", "he", "/", ":", "l", "web", "o"]
TEXTS = [
    "object.metadata.name", "object.spec.image", "object.spec.args[0]", "request.operation", "params.prefix",
    "request.userInfo.username", "object.metadata.labels.app",
]


class TypedForms(Expressions):
    """Typed values by the names of the functions that make them."""

    def known_text(self, name: str) -> str:
        """An argument of a function of texts: mostly of its form, and known from the documents."""
        forms, path = FORMS[name]
        chosen = self.numbers.below(16)
        if chosen < 7:
            return path
        if chosen < 13:
            return text_literal(self.numbers, self.numbers.pick(forms))
        if chosen < 15:
            return self.reached_text()
        return "object.spec.typed.?none.orValue({})".format(text_literal(self.numbers, self.numbers.pick(forms)))

    def reached_text(self) -> str:
        """A text that the documents or literals have."""
        numbers = self.numbers
        names = [name for name, given in self.names if given == "text"]
        if names and numbers.one_in(2):
            return numbers.pick(names)
        literal = text_literal(numbers, numbers.pick(documents.WORDS))
        path = numbers.pick(TEXTS)
        if numbers.one_in(8):
            return f"string({numbers.pick(['object.spec.replicas', 'object.spec.paused', path])})"
        return numbers.pick([path, path, path, literal, literal, f"({path} + {literal})"])

    def typed(self, name: str, room: int) -> str:
        """A typed value, as a text that binds as a member does."""
        numbers = self.numbers
        known = [one for one, given in self.variables.items() if given == name]
        if known and numbers.one_in(4):
            return f"variables.{numbers.pick(known)}"
        made = f"{name}({self.known_text(name)})"
        if name == "semver" and numbers.one_in(4):
            made = f"{made[:-1]}, {numbers.pick(['true', 'true', 'false'])})"
        if room <= 0 or not numbers.one_in(4):
            return made
        if name == "quantity":
            other = numbers.pick(["2", self.typed(name, room - 1), self.typed(name, room - 1)])
            return f"{made}.{numbers.pick(['add', 'sub'])}({other})"
        if name == "duration":
            return numbers.pick([f"({made} + {self.typed(name, 0)})", f"(-{made})", self.difference(made)])
        if name == "timestamp":
            return f"({made} {numbers.pick('+-')} {self.typed('duration', room - 1)})"
        return f"({self.part('bool', 0, TERNARY)} ? {made} : {self.typed(name, 0)})"

    def difference(self, made: str) -> str:
        if self.numbers.one_in(2):
            return f"({made} - {self.typed('duration', 0)})"
        return f"({self.typed('timestamp', 0)} - {self.typed('timestamp', 0)})"

    def compared_typed(self, _: str, room: int) -> tuple[Any, ...]:
        """A comparison of two typed values of one kind."""
        numbers = self.numbers
        name = numbers.pick(list(FORMS)[:6])
        left, right = self.typed(name, room), self.typed(name, room)
        if name in ("quantity", "semver") and numbers.one_in(2):
            return f"{left}.{numbers.pick(['isLessThan', 'isGreaterThan'])}({right})", MEMBER
        signs = ["==", "!=", "<", "<=", ">", ">="] if name in ORDERED else ["==", "!="]
        return self.between(left, numbers.pick(signs), right), RELATION

    def int_of_typed(self, _: str, room: int) -> tuple[Any, ...]:
        """An int of a typed value, or of a text."""
        numbers = self.numbers
        chosen = numbers.pick([0, 1, 2, 3, 4, 4, 5, 5, 5, 6, 7, 8])

        def call(name: str) -> str:
            return f"{name}({self.known_text(name)})"

        made = [
            lambda: f"{self.typed('quantity', room)}.compareTo({self.typed('quantity', room)})",
            lambda: f"{self.typed('semver', room)}.compareTo({self.typed('semver', room)})",
            lambda: f"{call('quantity')}.asInteger()",
            lambda: f"sign({call('quantity')})",
            lambda: f"{self.typed('duration', room)}.{numbers.pick(OF_DURATIONS)}()",
            lambda: f"{call('timestamp')}.{numbers.pick(OF_TIMESTAMPS)}()",
            lambda: f"{call('semver')}.{numbers.pick(['major', 'minor', 'patch'])}()",
            lambda: numbers.pick([f"{call('ip')}.family()", f"{call('cidr')}.prefixLength()"]),
            lambda: f"int({numbers.pick([self.known_text('int'), 'object.spec.replicas'])})",
        ]
        return made[chosen](), MEMBER

    def bool_of_text(self, _: str, room: int) -> tuple[Any, ...]:
        """A test of a text's form, or of a typed value."""
        numbers = self.numbers
        name = numbers.pick(list(TESTED))
        made = [
            lambda: f"{TESTED[name]}({self.known_text(name)})",
            lambda: f"{name}({self.known_text(name)}) == {name}({self.known_text(name)})",
            lambda: f"bool({numbers.pick([self.known_text('bool'), 'object.spec.paused'])})",
            lambda: f"quantity({self.known_text('quantity')}).isInteger()",
            lambda: f"ip({self.known_text('ip')}).{numbers.pick(['isLoopback', 'isUnspecified'])}()",
            lambda: f"cidr({self.known_text('cidr')}).containsIP({self.contained()})",
            lambda: f"format.{numbers.pick(list(NAMED_FORMATS))}().validate({self.reached_text()}).hasValue()",
            lambda: f"isSemver({self.known_text('semver')}, true)",
        ]
        chosen = numbers.below(len(made))
        return made[chosen](), RELATION if chosen == 1 else MEMBER

    def contained(self) -> str:
        return self.numbers.pick([self.known_text("ip"), f"ip({self.known_text('ip')})"])

    def type_tested(self, _: str, room: int) -> tuple[Any, ...]:
        paths = ["object.spec.replicas", "object.spec.args", "object.spec.none", "oldObject", "object.spec.paused"]
        numbers = self.numbers
        path = numbers.pick([*paths, *TEXTS])
        return f"type({path}) {numbers.pick(['==', '==', '!='])} {numbers.pick(KINDS_TESTED)}", RELATION

    def matched(self, _: str, room: int) -> tuple[Any, ...]:
        pattern = self.numbers.pick([f"'{self.numbers.pick(PATTERNS)}'"] * 5 + ["params.prefix"])
        return f"{self.reached_text()}.matches({pattern})", MEMBER

    def found(self, kind: str, room: int) -> tuple[Any, ...]:
        pattern = self.numbers.pick(PATTERNS)
        if kind == "text":
            return f"{self.reached_text()}.find('{pattern}')", MEMBER
        most = self.numbers.pick(["", "", ", 1", ", -1", ", 0"])
        return f"{self.reached_text()}.findAll('{pattern}'{most})", MEMBER

    def cut(self, kind: str, room: int) -> tuple[Any, ...]:
        """A text cut or changed, or the list of its parts."""
        numbers, text = self.numbers, self.reached_text()
        part, other = (text_literal(numbers, numbers.pick(PARTS)) for _ in range(2))
        most = numbers.pick(["", "", "", ", 0", ", 1", ", 2", ", -1"])
        if kind == "list":
            return f"{text}.split({text_literal(numbers, numbers.pick(SEPARATORS))}{most})", MEMBER
        place = numbers.pick(["0", "1", "2", "-1", "5", f"size({text})", f"{text}.indexOf({part})"])
        return numbers.pick([
            f"{text}.lowerAscii()", f"{text}.upperAscii()", f"{text}.trim()", f"{text}.charAt({place})",
            f"{text}.substring({place})", f"{text}.substring(0, {place})", f"{text}.replace({part}, {other}{most})",
        ]), MEMBER

    def place_of(self, _: str, room: int) -> tuple[Any, ...]:
        """The place of a part in a text."""
        numbers, word = self.numbers, self.numbers.pick(["indexOf", "lastIndexOf"])
        offset = numbers.pick(["", "", ", 0", ", 2", ", -1", ", 50"])
        return f"{self.reached_text()}.{word}({text_literal(numbers, numbers.pick(PARTS))}{offset})", MEMBER

    def formatted(self, _: str, room: int) -> tuple[Any, ...]:
        numbers = self.numbers
        verbs = [numbers.pick(["%s", "%s", "%d"]) for _ in range(numbers.below(4))]
        kinds = ["int" if verb == "%d" else numbers.pick(["text", "int", "bool"]) for verb in verbs]
        parts: Any = [self.part(kind, room, TERNARY) for kind in kinds]
        return f"'{' is 5%% '.join(verbs) or 'a'}'.format([{', '.join(parts)}])", MEMBER
