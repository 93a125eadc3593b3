"""The Python lines that match a value against a pattern; `break` ends a clause that does not match."""

from typing import Any, Callable, Iterator

from .tokens import NotRead

TRUTHS = {"true": "True", "false": "False"}
NATIVE_CONSTRUCTORS = {"pos", "negsuc", "tt", "inl", "inr"}


class Matcher:
    """Matches patterns; `constructor_of` gives the name of the constructor that a word or path is, or nothing."""

    def __init__(self, constructor_of: Callable[..., Any], fresh: Callable[..., Any]):
        self.constructor_of, self.fresh = constructor_of, fresh

    def lines(self, pattern: tuple[Any, ...], value: str, bound: dict[str, str]) -> Iterator[str]:
        """The lines for one pattern; the names that it binds go into `bound`."""
        kind = pattern[0]
        if kind == "number":
            yield from (f"{value} = force({value})", f"if {value} != {pattern[1]}: break")
        elif kind == "tuple":
            yield f"{value} = force({value})"
            for at, part in enumerate(pattern[1]):
                yield from self.part(part, f"{value}.fields[{str(at)!r}]", bound)
        elif kind == "operator" and pattern[1] == "∷":
            yield from self.made("∷", [pattern[2], pattern[3]], value, bound)
        elif kind == "apply" and pattern[1] == ("name", "suc"):
            yield from (f"{value} = force({value})", f"if {value} == 0: break")
            yield from self.part(pattern[2][0], f"{value} - 1", bound)
        elif kind == "apply":
            yield from self.made(self.constructor_of(pattern[1]), pattern[2], value, bound)
        else:
            yield from self.word(pattern, value, bound)

    def word(self, pattern: tuple[Any, ...], value: str, bound: dict[str, str]) -> Iterator[str]:
        """The lines for a name, which is a constructor or is bound."""
        name = pattern[1] if pattern[0] in ("name", "path") else None
        if name is None:
            raise NotRead(f"a pattern {pattern[0]}")
        if name in ("_", "tt"):
            return
        if name in TRUTHS:
            yield from (f"{value} = force({value})", f"if {value} is not {TRUTHS[name]}: break")
        elif name == "zero":
            yield from (f"{value} = force({value})", f"if {value} != 0: break")
        elif constructor := "[]" if name == "[]" else self.constructor_of(pattern):
            yield from self.made(constructor, [], value, bound)
        else:
            bound[name] = value

    def made(self, constructor: str, parts: list[tuple[Any, ...]], value: str, bound: dict[str, str]) -> Iterator[str]:
        yield from (f"{value} = force({value})", f"if {value}.name != {constructor!r}: break")
        for at, part in enumerate(parts):
            yield from self.part(part, f"{value}.parts[{at}]", bound)

    def part(self, pattern: tuple[Any, ...], value: str, bound: dict[str, str]) -> Iterator[str]:
        if pattern != ("name", "_"):
            name = self.fresh()
            yield f"{name} = {value}"
            yield from self.lines(pattern, name, bound)
