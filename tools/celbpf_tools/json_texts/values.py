"""Values, as bytes of JSON."""

from typing import Any

from .pieces import Pieces

# keys that are often repeated, with several spellings of one
KEYS = [
    b'"a"', b'"a"', b'"\\u0061"', b'"b"', b'"ab"', b'""', b'"A"', b'"a\\u0000"', b'"\\n"', b'"\xc3\xa9"',
    b'"\\u00e9"', b'"\xf0\x9f\x98\x80"',
    b'"\\ud83d\\ude00"', b'"\xef\xbf\xbf"', b'"\\uffff"', b'"spec"', b'"uid"', b'"object"', b'"oldObject"',
    b'"request"', b'"/"', b'"\\/"', b'"aa"',
]


class Values(Pieces):
    """Values drawn by numbers."""

    def value(self, depth: int) -> bytes:
        """A value whose lists and maps nest at most so deep."""
        kinds = [self.text, self.number, self.word]
        if depth > 0:
            kinds += [lambda: self.items(depth), lambda: self.members(depth), lambda: self.members(depth)]
        return self.space() + self.numbers.pick(kinds)() + self.space()

    def items(self, depth: int) -> bytes:
        count = self.numbers.pick([0, 0, 1, 2, 3, 5])
        return self.closed(b"[", [self.value(depth - 1) for _ in range(count)], b"]")

    def members(self, depth: int) -> bytes:
        """A map, in which keys may be repeated."""
        count = self.numbers.pick([0, 0, 1, 2, 3, 4, 6])
        return self.map_of([(self.key(), self.value(depth - 1)) for _ in range(count)])

    def key(self) -> bytes:
        return self.text() if self.numbers.one_in(4) else self.numbers.pick(KEYS)

    def map_of(self, members: list[Any]) -> bytes:
        """A map of these keys and values, in this order."""
        return self.closed(b"{", [self.member(*pair) for pair in members], b"}")

    def member(self, key: bytes, value: bytes) -> bytes:
        colon = self.numbers.pick([b"", b"::", b"=", b",", b" :: "]) if self.spoils("colon") else b":"
        return self.space() + key + self.space() + colon + value

    def closed(self, first: bytes, parts: list[Any], last: bytes) -> bytes:
        """A list or map of these parts, now and then with a comma or a bracket too many or too few."""
        comma = b","
        if self.spoils("closed"):
            spoil = self.numbers.below(6)
            if spoil == 0:
                parts = [*parts, self.space()]
            elif spoil == 1:
                parts = [self.space(), *parts]
            elif spoil == 2:
                comma = self.numbers.pick([b"", b",,", b";", b" ", b":"])
            elif spoil == 3:
                last = self.numbers.pick([b"", b"]", b"}", b")", last + last])
            elif spoil == 4:
                first = self.numbers.pick([b"", b"[", b"{", b"(", first + first])
            else:
                parts = [*parts, first, last]
        return first + (comma.join(parts) or self.space()) + last

    def tower(self, depth: int) -> bytes:
        """Lists and maps nested exactly so deep, the same all the way or mixed."""
        kinds = self.numbers.pick([[0], [1], [0, 1], [0, 1, 2, 3]])
        value = self.word() if self.numbers.one_in(2) or depth == 0 else b""
        for level in range(depth):
            kind = self.numbers.pick(kinds)
            if not value:
                value = b"[]" if kind in (0, 2) else b"{}"
            elif kind in (0, 2):
                value = b"[" + value + (b",1" if kind == 2 else b"") + b"]"
            else:
                key, more = b"b" if level % 7 else b"\\n", b',"a":[0,{}]' if kind == 3 else b""
                value = b'{"' + key + b'":' + value + more + b"}"
        return value
