"""The kinds of calls of functions and methods."""

import re
from typing import Any, Optional

from .patterns import BadPattern, compiled
from .refused import refuse
from .signatures import FUNCTIONS, KNOWN_METHODS, MAKERS, METHODS, NAMESPACES, OF_CALLS, OF_OPTIONALS, OF_TYPED, PLAIN, TYPED, Opt
from .texts import NAMED_FORMATS
from .trees import Call, ListLiteral, Literal, Method, Name, Node

VERB = re.compile(r"%(.?)", re.DOTALL)
FINDING = ("find", "findAll")


def format_tested(tree: Method) -> Optional[tuple[Any, ...]]:
    """The name and text of `format.NAME().validate(text).hasValue()`, or None."""
    inner = tree.target
    if tree.method != "hasValue" or tree.arguments or not isinstance(inner, Method):
        return None
    named = inner.target
    if inner.method != "validate" or len(inner.arguments) != 1 or not isinstance(named, Method):
        return None
    if named.target != Name(0, "format") or named.method not in NAMED_FORMATS or named.arguments:
        return None
    return named.method, inner.arguments[0]


def qualified(tree: Method) -> Optional[str]:
    """The name of the function that a method spells, such as `optional.of`, or None."""
    target = tree.target
    if isinstance(target, Name) and not target.dotted and target.name in NAMESPACES:
        return f"{target.name}.{tree.method}"
    return None


def is_maker(tree: Any, kind: str) -> bool:
    """Whether a tree is the call that makes a typed value of this kind."""
    return isinstance(tree, Call) and MAKERS.get(tree.function) == kind


class Calls:
    """The kinds of calls, over those of their parts."""

    def of(self, tree: Any, names: dict[str, Any]) -> Any:
        raise NotImplementedError

    def plain(self, tree: Any, names: dict[str, Any]) -> str:
        raise NotImplementedError

    def call(self, tree: Call, names: dict[str, Any]) -> Any:
        if "." in tree.function or tree.function not in FUNCTIONS:
            # the arguments of an unknown function have no rules
            refuse("W5", tree.place, tree.function)
        if tree.function == "sign":
            return self.sign(tree, names)
        given = [self.of(one, names) for one in tree.arguments]
        if tree.function in MAKERS and given == [MAKERS[tree.function]]:
            return given[0]
        return self.result(tree, tree.function, given, tree.arguments)

    def sign(self, tree: Call, names: dict[str, Any]) -> str:
        given = [self.of(one, names) for one in tree.arguments]
        self.result(tree, "sign", given, tree.arguments)
        self.needs_call(tree.arguments[0], "Quantity", names)
        return "Int"

    def needs_call(self, tree: Any, kind: str, names: dict[str, Any]) -> None:
        """Refuses a typed value that is not made by the call itself, of a text."""
        if not is_maker(tree, kind) or self.of(tree.arguments[0], names) not in PLAIN:
            refuse("W9", tree.place)

    def result(self, tree: Node, name: str, given: list[Any], arguments: tuple[Any, ...]) -> Any:
        """The kind of a function's result on arguments of these kinds."""
        wanted, least, result = FUNCTIONS[name]
        self.take(tree, name, (wanted, least), given, arguments)
        return Opt(given[0]) if result is None else result

    def take(self, tree: Any, name: str, signature: tuple[Any, ...], given: list[Any], arguments: tuple[Any, ...]) -> None:
        """Refuses arguments that a signature does not take."""
        wanted, least = signature
        if not least <= len(given) <= len(wanted):
            refuse("W5", getattr(tree, "named", tree.place), name)
        for argument, one, kinds in zip(arguments, given, wanted):
            if one == "Int" and "literal" in kinds and isinstance(argument, Literal):
                continue
            if one not in PLAIN and one not in kinds:
                refuse("W4", argument.place)
            if one not in kinds and not (one == "Dyn" and set(kinds) & set(PLAIN)):
                refuse("Y2", tree.place)

    def method(self, tree: Method, names: dict[str, Any]) -> Any:
        tested, function = format_tested(tree), qualified(tree)
        if tested:
            is_text = self.plain(tested[1], names) in ("String", "Dyn")
            return "Bool" if is_text else refuse("Y2", tree.place)
        if function:
            if function not in FUNCTIONS:
                refuse("W5", tree.place, function)
            return self.result(tree, function, [self.of(one, names) for one in tree.arguments], tree.arguments)
        if tree.method == "format":
            return self.formatted(tree, names)
        target = self.of(tree.target, names)
        if tree.method not in KNOWN_METHODS:
            self.unknown(tree)
        given = [self.of(one, names) for one in tree.arguments]
        if isinstance(target, Opt):
            return self.of_optional(tree, target, given)
        if target in TYPED and tree.method in OF_TYPED[target]:
            return self.of_typed(tree, target, given, names)
        return self.of_plain(tree, target, given)

    def unknown(self, tree: Method) -> Any:
        refuse("W5", tree.named, tree.method)

    def of_optional(self, tree: Method, target: Opt, given: list[Any]) -> Any:
        if len(given) != OF_OPTIONALS.get(tree.method, -1):
            if tree.method in OF_OPTIONALS:
                self.unknown(tree)
            refuse("W4", tree.target.place)
        if tree.method == "hasValue":
            return "Bool"
        if tree.method == "value":
            return target.inner
        if tree.method == "or":
            return self.either(tree, target.inner, given[0])
        if given[0] == target.inner:
            return target.inner
        return "Dyn" if given[0] in PLAIN and target.inner in PLAIN else refuse("W4", tree.arguments[0].place)

    def either(self, tree: Method, inner: str, other: Any) -> Opt:
        """The kind of `o.or(p)`."""
        if not isinstance(other, Opt):
            refuse("Y2" if other in PLAIN else "W4", tree.arguments[0].place)
        if inner == other.inner:
            return other
        if inner in PLAIN and other.inner in PLAIN:
            return Opt("Dyn")
        return refuse("W4", tree.arguments[0].place)

    def of_typed(self, tree: Method, target: str, given: list[Any], names: dict[str, Any]) -> str:
        wanted, least, result = OF_TYPED[target][tree.method]
        self.take(tree, tree.method, (wanted, least), given, tree.arguments)
        if tree.method in OF_CALLS.get(target, ()):
            self.needs_call(tree.target, target, names)
        return result

    def of_plain(self, tree: Method, target: Any, given: list[Any]) -> Any:
        if target not in PLAIN or tree.method not in METHODS:
            refuse("Y2" if target in PLAIN else "W4", tree.target.place)
        for receivers, wanted, least, result in METHODS[tree.method]:
            if target in receivers or target == "Dyn" and self.may_take(receivers, tree, given):
                self.take(tree, tree.method, (wanted, least), given, tree.arguments)
                self.pattern(tree)
                return result
        return refuse("Y2", tree.place)

    def may_take(self, receivers: tuple[Any, ...], tree: Method, given: list[Any]) -> bool:
        """Whether an unknown receiver may be one of these: of several signatures the first that fits."""
        rows = METHODS[tree.method]
        is_text = len(given) == 2 or given[:1] == ["String"]
        return len(rows) == 1 or receivers == (rows[0] if is_text else rows[1])[0]

    def pattern(self, tree: Method) -> None:
        """Refuses a literal pattern that is not taken."""
        if tree.method not in ("matches", *FINDING) or not isinstance(tree.arguments[0], Literal):
            return
        try:
            compiled(str(tree.arguments[0].value), tree.method in FINDING)
        except BadPattern:
            refuse("W8", tree.arguments[0].place)

    def formatted(self, tree: Method, names: dict[str, Any]) -> str:
        """`'..'.format([a, ..])`"""
        text, values = tree.target, tree.arguments[0] if len(tree.arguments) == 1 else None
        if not isinstance(text, Literal) or not isinstance(text.value, str) or not isinstance(values, ListLiteral):
            self.unknown(tree)
        verbs = VERB.findall(text.value)
        count = sum(verb != "%" for verb in verbs)
        if any(verb not in ("s", "d", "%") for verb in verbs) or count != len(values.items):
            self.unknown(tree)
        if any(optional for optional, _ in values.items):
            self.unknown(tree)
        kinds = [self.plain(one, names) for _, one in values.items]
        for verb, one in zip([verb for verb in verbs if verb != "%"], kinds):
            if one not in ("Int", "Dyn") + (("String", "Bool", "Null") if verb == "s" else ()):
                refuse("Y2", tree.place)
        return "String"
