"""What the toolchain's own libraries compute, in Python: arithmetic, lists, texts, bytes and bits."""

from typing import Any, Callable

from .values import EMPTY, Later, Made, Statement, Stuck, Unknown, applied, elements, force, listed

MOST_BITS = 100_000
NATIVES: dict[str, Callable[..., Any]] = {}
# other names under which the crates know them
ALIASES = {
    "slice_index_or": "get_or", "slice_set": "set", "encodes": "encode_utf8_all", "nat_eq": "eqb", "nat_lt": "ltb",
    "nat_le": "leb", "unsigned_abs": "nat_abs", "◌++◌": "++", "◌&&◌": "&&", "◌||◌": "||",
}  # fmt: skip


def native(*names: str) -> Callable[..., Any]:
    """Enters a function under its name, or under these."""

    def enter(function: Callable[..., Any]) -> Callable[..., Any]:
        NATIVES.update({name: function for name in names or (function.__name__,)})
        return function

    return enter


def arity_of(name: str) -> int:
    return NATIVES[name].__code__.co_argcount


def minus(one: int, other: int) -> int:
    return max(one - other, 0)


def divided(one: int, other: int) -> int:
    return one // other if other else 0


def rest(one: int, other: int) -> int:
    return one % other if other else one


def power(base: int, exponent: int) -> int:
    if exponent > MOST_BITS:
        raise Unknown("a large power")
    return base**exponent


def integer(value: Any) -> int:
    """The number that a ℤ is."""
    found = force(value)
    if found.__class__ is not Made:
        raise Stuck("no integer")
    number = force(found.parts[0])
    return number if found.name == "pos" else -number - 1


def as_integer(number: int) -> Made:
    return Made("pos", (number,)) if number >= 0 else Made("negsuc", (-number - 1,))


# ---- lists: the part that is computed already is taken at once, and the rest when it is needed


def seen(value: Any) -> Any:
    """A value that is computed already, or nothing."""
    while value.__class__ is Later:
        if value.run is not None:
            return None
        value = value.value
    return value


def front(values: Any, most: float = float("inf")) -> tuple[list[Any], Any]:
    """The elements of the computed front of a list, at most so many, and the rest."""
    found: list[Any] = []
    left = force(values)
    while left.name == "∷" and len(found) < most:
        found.append(left.parts[0])
        after = seen(left.parts[1])
        if after is None:
            return found, left.parts[1]
        left = after
    return found, left


def onto(values: list[Any], after: Any) -> Any:
    for value in reversed(values):
        after = Made("∷", (value, after))
    return after


@native("++")
def joined(one: Any, other: Any) -> Any:
    values, after = front(one)
    if after.__class__ is Made:
        return onto(values, other) if values else force(other)
    return onto(values, Later(lambda: joined(after, other)))


@native()
def take(count: Any, values: Any) -> Any:
    number = force(count)
    found, after = front(values, number) if number else ([], EMPTY)
    if len(found) == number or after.__class__ is Made:
        return onto(found, EMPTY)
    return onto(found, Later(lambda: take(number - len(found), after)))


@native()
def drop(count: Any, values: Any) -> Any:
    number, left = force(count), force(values)
    while number and left.name == "∷":
        number, left = number - 1, force(left.parts[1])
    return left


@native("map")
def mapped(function: Any, values: Any) -> Any:
    found, after = front(values)
    results = [Later(lambda value=value: applied(function, value)) for value in found]
    return onto(results, EMPTY if after.__class__ is Made else Later(lambda: mapped(function, after)))


@native("set")
def put(values: Any, place: Any, value: Any) -> Any:
    number = force(place)
    found, after = front(values, number)
    if len(found) == number:
        left = force(after)
        return onto(found, EMPTY if left.name == "[]" else Made("∷", (value, left.parts[1])))
    if after.__class__ is Made:
        return onto(found, EMPTY)
    return onto(found, Later(lambda: put(after, number - len(found), value)))


@native()
def get_or(values: Any, place: Any, other: Any) -> Any:
    left = drop(place, values)
    return force(left.parts[0] if left.name == "∷" else other)


@native()
def length(values: Any) -> int:
    return len(elements(values))


@native()
def reverse(values: Any) -> Any:
    return listed(elements(values)[::-1])


@native()
def replicate(count: Any, value: Any) -> Any:
    return listed([value] * force(count))


@native()
def pointwise(same: Any, one: Any, other: Any) -> bool:
    left, right = force(one), force(other)
    while left.name == right.name == "∷":
        if not applied(same, left.parts[0], right.parts[0]):
            return False
        left, right = force(left.parts[1]), force(right.parts[1])
    return left.name == right.name


# ---- texts


def utf8(code: int) -> list[int]:
    """The bytes of a character; halves of a pair have some too."""
    return list(chr(code).encode("utf-8", "surrogatepass"))


@native()
def codes(text: Any) -> Any:
    found = force(text)
    if not isinstance(found, str):
        raise Unknown("the codes of no text")
    return listed([ord(letter) for letter in found])


@native()
def encode_utf8(code: Any) -> Any:
    return listed(utf8(force(code)))


@native()
def encode_utf8_all(values: Any) -> Any:
    return listed([byte for value in elements(values) for byte in utf8(force(value))])


# ---- truths and numbers


@native()
def cond(test: Any, one: Any, other: Any) -> Any:
    return force(one) if force(test) else force(other)


def bits(width: Any) -> int:
    """The number of bits of a width, `w8` to `w128`."""
    found = force(width)
    if found.__class__ is not Made or found.name[:1] != "w":
        raise Unknown("a width")
    return int(found.name[1:])


def truncated(one: int, other: int) -> int:
    """The quotient, rounded towards zero; zero if the divisor is."""
    quotient = abs(one) // abs(other) if other else 0
    return quotient if (one < 0) == (other < 0) else -quotient


def signed(width: int, number: int) -> int:
    return number if number < 2 ** (width - 1) else number - 2**width


def width(name: str) -> Callable[..., Any]:
    value = Made(name)
    return lambda: value


NATIVES |= {f"w{count}": width(f"w{count}") for count in (8, 16, 32, 64, 128)}
NATIVES |= {
    "not": lambda a: not force(a),
    "&&": lambda a, b: force(a) and force(b),
    "||": lambda a, b: force(a) or force(b),
    "T": lambda a: Statement("holds", a),
    "FitsSigned": lambda a, b: Statement("holds", Later(lambda: -(2 ** (bits(a) - 1)) <= integer(b) < 2 ** (bits(a) - 1))),
    "suc": lambda a: force(a) + 1,
    "pred": lambda a: minus(force(a), 1),
    "min": lambda a, b: min(force(a), force(b)),
    "max": lambda a, b: max(force(a), force(b)),
    "eqb": lambda a, b: force(a) == force(b),
    "ltb": lambda a, b: force(a) < force(b),
    "leb": lambda a, b: force(a) <= force(b),
    "bit_and": lambda a, b: force(a) & force(b),
    "bit_or": lambda a, b: force(a) | force(b),
    "bit_xor": lambda a, b: force(a) ^ force(b),
    "count_ones": lambda a: force(a).bit_count(),
    "+ℤ": lambda a, b: as_integer(integer(a) + integer(b)),
    "-ℤ": lambda a, b: as_integer(integer(a) - integer(b)),
    "*ℤ": lambda a, b: as_integer(integer(a) * integer(b)),
    "neg_ℤ": lambda a: as_integer(-integer(a)),
    "nat_abs": lambda a: abs(integer(a)),
    "non_neg": lambda a: integer(a) >= 0,
    "int_lt": lambda a, b: integer(a) < integer(b),
    "int_le": lambda a, b: integer(a) <= integer(b),
    "int_div": lambda a, b: as_integer(truncated(integer(a), integer(b))),
    "int_rem": lambda a, b: as_integer(integer(a) - integer(b) * truncated(integer(a), integer(b))),
    "int_rem_euclid": lambda a, b: as_integer(integer(a) % abs(integer(b)) if integer(b) else integer(a)),
    "int_shr": lambda a, b: as_integer(integer(a) >> force(b)),
    "shr_z": lambda a, b: as_integer(integer(a) >> force(b)),
    "bits": lambda a: bits(a),
    "hbits": lambda a: bits(a) - 1,
    "of_z": lambda a, b: integer(b) % 2 ** bits(a),
    "to_z": lambda a, b: as_integer(signed(bits(a), force(b))),
    "bool_byte": lambda a: int(force(a)),
}
NATIVES |= {alias: NATIVES[name] for alias, name in ALIASES.items()}
