"""The values of definitions: numbers, truths and texts are Python's own; all is computed when it is first needed."""

from typing import Any, Callable


class Unknown(Exception):
    """Something that is not computed here, such as a quantifier."""


class Stuck(Exception):
    """A value of a kind that no clause and no operation has."""


class Later:
    """A value that is computed when it is needed, and then kept."""

    __slots__ = ("run", "value")

    def __init__(self, run: Callable[..., Any]):
        self.run = run


class Made:
    """A constructor with its arguments."""

    __slots__ = ("name", "parts")

    def __init__(self, name: str, parts: tuple[Any, ...] = ()):
        self.name, self.parts = name, parts


class Record:
    """A record with its fields, or a tuple, whose fields are `0`, `1` and so on."""

    __slots__ = ("fields",)

    def __init__(self, fields: dict[str, Any]):
        self.fields = fields


class Function:
    """A function with those of its arguments that it has."""

    __slots__ = ("arity", "run", "given")

    def __init__(self, arity: int, run: Callable[..., Any], given: tuple[Any, ...] = ()):
        self.arity, self.run, self.given = arity, run, given


class Statement:
    """A statement by its sign, over values and statements."""

    __slots__ = ("sign", "parts")

    def __init__(self, sign: str, *parts: Any):
        self.sign, self.parts = sign, parts


class Opaque:
    """A type, or something else that is not computed here."""

    __slots__ = ("name",)

    def __init__(self, name: str):
        self.name = name


EMPTY = Made("[]")


def stuck() -> None:
    raise Stuck("a value of no case")


def computing() -> None:
    raise Stuck("a value that needs itself")


def unknown() -> None:
    raise Unknown("a value that may be any")


def free() -> Later:
    """A value that may be any: what needs it is not computed."""
    return Later(unknown)


def force(value: Any) -> Any:
    """The value, computed if it is not yet."""
    while value.__class__ is Later:
        run = value.run
        if run is None:
            value = value.value
            continue
        value.run = computing
        try:
            found = run()
        except BaseException:
            value.run = run
            raise
        value.value, value.run = found, None
        value = found
    return value


def applied(function: Any, *arguments: Any) -> Any:
    """A function with more arguments."""
    found = force(function)
    while arguments:
        if found.__class__ is Function:
            given = found.given + arguments
            if len(given) < found.arity:
                return Function(found.arity, found.run, given)
            arguments = given[found.arity :]
            found = force(found.run(*given[: found.arity]))
        elif found.__class__ is Made:
            return Made(found.name, found.parts + arguments)
        elif found.__class__ in (Opaque, Statement):
            return Opaque("applied")
        else:
            raise Stuck("no function is applied")
    return found


def field_of(value: Any, name: str) -> Any:
    """The field of a record."""
    found = force(value)
    if found.__class__ is Opaque:
        raise Unknown(f"a field of {found.name}")
    if found.__class__ is not Record or name not in found.fields:
        raise Stuck(f"no field {name}")
    return force(found.fields[name])


def updated(base: Any, fields: dict[str, Any]) -> Record:
    """A record with other fields."""
    found = force(base)
    if found.__class__ is not Record:
        raise Stuck("no record is changed")
    return Record({**found.fields, **fields})


def listed(values: list[Any]) -> Made:
    """A list of these."""
    found = EMPTY
    for value in reversed(values):
        found = Made("∷", (value, found))
    return found


def elements(value: Any) -> list[Any]:
    """The elements of a list."""
    found, rest = [], force(value)
    while rest.name != "[]":
        found.append(rest.parts[0])
        rest = force(rest.parts[1])
    return found


def parts_of(one: Any, other: Any) -> list[Any]:
    """The pairs of parts of two values of one kind that are to be equal, or nothing where the two differ at once."""
    if one.__class__ is Made and one.name == other.name and len(one.parts) == len(other.parts):
        return list(zip(one.parts, other.parts))
    if one.__class__ is Record and one.fields.keys() == other.fields.keys():
        return [(one.fields[name], other.fields[name]) for name in one.fields]
    raise Stuck("values of two types are compared")


def are_equal(one: Any, other: Any) -> bool:
    """Whether two values of one type are the same."""
    pairs = [(one, other)]
    while pairs:
        left, right = (force(it) for it in pairs.pop())
        if left is right:
            continue
        if left.__class__ in (Function, Opaque, Statement) or right.__class__ in (Function, Opaque, Statement):
            raise Unknown("functions or types are compared")
        if left.__class__ is not right.__class__:
            raise Stuck("values of two types are compared")
        if left.__class__ in (int, bool, str):
            if left != right:
                return False
        elif left.__class__ is Made and left.name != right.name:
            return False
        else:
            pairs += reversed(parts_of(left, right))
    return True
