"""Translates a definition to a Python function: its arguments are computed when they are needed, and its result at once."""

from typing import Any, Callable, Optional

from .clauses import patterns, result
from .matching import NATIVE_CONSTRUCTORS, Matcher
from .names import Meaning, Names
from .natives import NATIVES, arity_of
from .sources import Clause, Definition, Source
from .syntax import Reader
from .tokens import NotRead

STATEMENTS = ("≡", "≢", "<", "≤", "<ℤ", "≤ℤ", "⊎", "↔")
COMPUTED = {
    "+": "({} + {})", "*": "({} * {})", "-": "minus({}, {})", "/": "divided({}, {})", "%": "rest({}, {})", "^": "power({}, {})",
    "&&": "({} and {})", "||": "({} or {})", "==": "({} == {})",
}  # fmt: skip
CONSTANTS = {
    "true": "True", "false": "False", "zero": "0", "[]": "EMPTY", "⊤": "Statement('×')", "Unit": "Statement('×')",
    "⊥": "Statement('holds', False)", "Empty": "Statement('holds', False)",
}  # fmt: skip
KEPT = ("Made(", "Function(", "constant(", "onto(")


class Translation:
    """One definition; `key_of` gives the Python name of a definition."""

    def __init__(self, names: Names, source: Source, definition: Definition, key_of: Callable[..., Any]):
        self.names, self.source, self.definition, self.key_of = names, source, definition, key_of
        self.count = 0
        self.matcher = Matcher(self.constructor_of, self.fresh)

    def fresh(self) -> str:
        self.count += 1
        return f"v{self.count}"

    def constructor_of(self, word: tuple[Any, ...]) -> Optional[str]:
        """The name of the constructor that a word or path is, if it is one; those of later types are none yet."""
        if word[0] == "path":
            found, rest = self.names.along(self.source, word[1])
            return found.name if found.kind == "constructor" and not rest else None
        found = self.names.meaning(self.source, word[1])
        is_later = found.module == self.source.name and self.source.constructors.get(found.name, -1) > self.definition.place
        return found.name if (found.kind == "constructor" and not is_later) or found.name in NATIVE_CONSTRUCTORS else None

    def arity(self, definition: Definition, source: Optional[Source]) -> int:
        if definition.kind != "function" or source is None:
            return len(definition.parameters)
        return len(definition.shared) + len(patterns(source, definition, definition.clauses[0])) if definition.clauses else 0

    # ---- functions

    def function(self, key: str) -> str:
        """The text of the Python function."""
        if self.definition.kind == "data":
            return f"def {key}(*given):\n    return Opaque({self.definition.name!r})\n"
        if self.definition.kind == "record":
            return self.record(key)
        arguments = [f"a{at}" for at in range(self.arity(self.definition, self.source))]
        lines = [f"def {key}({', '.join(arguments)}):", f"    ran.add({key!r})"]
        for clause in self.definition.clauses:
            lines += self.clause(clause, arguments)
        return "\n".join([*lines, f"    raise Stuck({self.definition.name!r})", ""])

    def clause(self, clause: Clause, arguments: list[str]) -> list[str]:
        shared = self.definition.shared
        found = patterns(self.source, self.definition, clause)
        if len(shared) + len(found) != len(arguments):
            raise NotRead(f"clauses of {self.definition.name} with different numbers of arguments")
        bound = dict(zip(shared, arguments))
        lines = [line for value, pattern in zip(arguments[len(shared) :], found) for line in self.matcher.lines(pattern, value, bound)]
        lines.append(f"return {self.now(result(self.source, clause), bound)}")
        return ["    while True:", *(f"        {line}" for line in lines)]

    def record(self, key: str) -> str:
        """A record as a statement: all its fields hold, as far as none names an earlier one's value."""
        arguments = [f"a{at}" for at in range(len(self.definition.parameters))]
        bound, parts = dict(zip(self.definition.parameters, arguments)), []
        for name, tokens in self.definition.fields:
            try:
                parts.append(self.later(Reader(tokens, self.source.strengths).whole(), bound))
            except NotRead:
                parts.append("Opaque('a field')")
            bound[name] = "Opaque('a field')"
        head = f"def {key}({', '.join(arguments)}):\n    ran.add({key!r})\n"
        return head + f"    return Statement({', '.join([repr('×'), *parts])})\n"

    # ---- expressions

    def later(self, read: tuple[Any, ...], bound: dict[str, Any]) -> str:
        """An expression whose value is computed when it is needed."""
        if read[0] == "name" and read[1] in bound:
            return bound[read[1]]
        text = self.now(read, bound)
        is_value = read[0] in ("number", "text", "function", "tuple") or (read[0] == "record" and read[1] is None)
        if is_value or text in CONSTANTS.values() or (text.startswith(KEPT) and self.is_one_call(text)):
            return text
        return f"Later(lambda: {text})"

    @staticmethod
    def is_one_call(text: str) -> bool:
        """Whether the first bracket is closed by the last."""
        depth = 0
        for at, letter in enumerate(text):
            depth += (letter == "(") - (letter == ")")
            if letter == ")" and not depth:
                return at == len(text) - 1
        return False

    def now(self, read: tuple[Any, ...], bound: dict[str, Any]) -> str:
        """An expression that computes the value."""
        return getattr(self, f"of_{read[0]}")(bound, *read[1:])

    def of_number(self, bound: dict[str, Any], number: int) -> str:
        return str(number)

    def of_text(self, bound: dict[str, Any], text: str) -> str:
        return repr(text)

    def of_unit(self, bound: dict[str, Any]) -> str:
        return "Made('tt')"

    def of_all(self, bound: dict[str, Any], names: list[str], result: tuple[Any, ...]) -> str:
        """What holds whatever these values are: it is computed as far as it needs none of them."""
        words = [self.fresh() for _ in names]
        inner = {**bound, **dict(zip(names, words))}
        return f"(lambda {', '.join(words)}: {self.now(result, inner)})({', '.join('free()' for _ in words)})"

    def of_some(self, bound: dict[str, Any]) -> str:
        return "Opaque('there is')"

    def of_name(self, bound: dict[str, Any], name: str) -> str:
        if name in bound:
            return f"force({bound[name]})"
        return self.meant(self.names.meaning(self.source, name), [], bound)

    def of_path(self, bound: dict[str, Any], path: tuple[Any, ...]) -> str:
        if path[0] in bound:
            text, rest = bound[path[0]], path[1:]
        else:
            found, rest = self.names.along(self.source, path)
            text = self.meant(found, [], bound)
        for name in rest:
            text = f"field_of({text}, {name!r})"
        return text

    def of_apply(self, bound: dict[str, Any], function: tuple[Any, ...], arguments: list[Any]) -> str:
        if function[0] == "name" and function[1] not in bound:
            return self.meant(self.names.meaning(self.source, function[1]), arguments, bound)
        if function[0] == "path" and function[1][0] not in bound:
            found, rest = self.names.along(self.source, function[1])
            if not rest:
                return self.meant(found, arguments, bound)
        return f"applied({self.all_later([function, *arguments], bound)})"

    def of_if(self, bound: dict[str, Any], test: tuple[Any, ...], one: tuple[Any, ...], other: tuple[Any, ...]) -> str:
        return f"({self.now(one, bound)} if {self.now(test, bound)} else {self.now(other, bound)})"

    def of_elim(self, bound: dict[str, Any], value: tuple[Any, ...], cases: list[Any]) -> str:
        word, text = self.fresh(), "stuck()"
        for pattern, then in reversed(cases):
            constructor = self.constructor_of(pattern)
            if constructor is None:
                raise NotRead("a case with arguments")
            text = f"({self.now(then, bound)} if {word}.name == {constructor!r} else {text})"
        return f"(lambda {word}: {text})({self.now(value, bound)})"

    def of_let(self, bound: dict[str, Any], name: str, value: tuple[Any, ...], rest: tuple[Any, ...]) -> str:
        word = self.fresh()
        return f"(lambda {word}: {self.now(rest, {**bound, name: word})})({self.later(value, bound)})"

    def of_function(self, bound: dict[str, Any], names: list[Any], value: tuple[Any, ...]) -> str:
        words = [self.fresh() for _ in names]
        inner = {**bound, **dict(zip(names, words))}
        return f"Function({len(words)}, lambda {', '.join(words)}: {self.now(value, inner)})"

    def of_tuple(self, bound: dict[str, Any], parts: list[Any]) -> str:
        return self.of_record(bound, None, [(str(at), part) for at, part in enumerate(parts)])

    def of_record(self, bound: dict[str, Any], base: Optional[tuple[Any, ...]], fields: list[Any]) -> str:
        text = "{" + ", ".join(f"{name!r}: {self.later(value, bound)}" for name, value in fields) + "}"
        return f"Record({text})" if base is None else f"updated({self.later(base, bound)}, {text})"

    def of_field(self, bound: dict[str, Any], value: tuple[Any, ...], name: str) -> str:
        return f"field_of({self.later(value, bound)}, {name!r})"

    def of_implies(self, bound: dict[str, Any], left: tuple[Any, ...], right: tuple[Any, ...]) -> str:
        return f"Statement('→', {self.all_later([left, right], bound)})"

    def of_both(self, bound: dict[str, Any], left: tuple[Any, ...], right: tuple[Any, ...]) -> str:
        return f"Statement('×', {self.all_later([left, right], bound)})"

    def of_operator(self, bound: dict[str, Any], sign: str, left: tuple[Any, ...], right: tuple[Any, ...]) -> str:
        if sign == "∷":
            return self.listed(bound, left, right)
        if sign in STATEMENTS:
            return f"Statement({sign!r}, {self.all_later([left, right], bound)})"
        if sign in COMPUTED:
            return COMPUTED[sign].format(self.now(left, bound), self.now(right, bound))
        return self.meant(self.names.meaning(self.source, sign), [left, right], bound)

    def listed(self, bound: dict[str, Any], first: tuple[Any, ...], rest: tuple[Any, ...]) -> str:
        """Elements in front of a list; Python's brackets nest less deep than lists are long."""
        found = [first]
        while rest[0] == "operator" and rest[1] == "∷":
            found.append(rest[2])
            rest = rest[3]
        return f"onto([{self.all_later(found, bound)}], {self.later(rest, bound)})"

    # ---- what words stand for

    def all_later(self, read: list[Any], bound: dict[str, Any]) -> str:
        return ", ".join(self.later(it, bound) for it in read)

    def made(self, name: str, parts: list[Any], bound: dict[str, Any]) -> str:
        given = "".join(f"{self.later(part, bound)}, " for part in parts)
        return f"Made({name!r}, ({given}))" if parts else f"Made({name!r})"

    def meant(self, found: Meaning, arguments: list[Any], bound: dict[str, Any]) -> str:
        """What a word stands for, with arguments."""
        if found.kind == "constructor" or (found.kind == "native" and found.name.strip("◌") in {*NATIVE_CONSTRUCTORS, "∷"}):
            return self.made(found.name.strip("◌"), arguments, bound)
        if found.kind in ("function", "record"):
            return self.called(found, arguments, bound)
        if found.kind != "native":
            return f"Opaque({found.name!r})"
        if found.name in CONSTANTS:
            return CONSTANTS[found.name]
        if found.name in ("◌≡◌", "◌≢◌") and len(arguments) == 2:
            return f"Statement({found.name.strip('◌')!r}, {self.all_later(arguments, bound)})"
        if found.name not in NATIVES:
            return f"Opaque({found.name!r})"
        return self.given(f"NATIVES[{found.name!r}]", arity_of(found.name), [self.later(it, bound) for it in arguments])

    def called(self, found: Meaning, arguments: list[Any], bound: dict[str, Any]) -> str:
        """A definition with arguments; within a module with parameters, those come first."""
        source, definition = self.names.source(found.module), self.names.definition(found)
        given = [self.later(it, bound) for it in arguments]
        if found.module == self.source.name and definition.shared and self.definition.shared:
            given = [bound[name] for name in definition.shared] + given
        key, arity = self.key_of(found), self.arity(definition, source)
        if arity == 0:
            return self.given(f"force(constant({key!r}))", -1, given)
        return self.given(key, arity, given)

    @staticmethod
    def given(function: str, arity: int, given: list[str]) -> str:
        """A function of so many arguments with these, more or fewer; a value if the number is -1."""
        if 0 <= len(given) < arity:
            return f"Function({arity}, lambda *more: {function}(*more), ({''.join(it + ', ' for it in given)}))"
        text = function if arity < 0 else f"{function}({', '.join(given[:arity])})"
        rest = given if arity < 0 else given[arity:]
        return f"applied({text}, {', '.join(rest)})" if rest else text
