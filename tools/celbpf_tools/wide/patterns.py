"""Patterns: the forms that are taken, written anew for Python's `re`.

A pattern becomes a tree of tuples: ("set", ranges), ("mark", spelled), ("all", parts), ("any", parts),
("repeat", part, least, most, spelled). Case is folded in the sets, since `re` folds more than is defined.
"""

import re
from typing import Any, NoReturn

LAST = 0x10FFFF
MOST_BYTES, MOST_COUNT = 1_024, 1_000
DIGITS, SPACES = [(48, 57)], [(9, 10), (12, 13), (32, 32)]
WORD = [(48, 57), (65, 90), (95, 95), (97, 122)]
CLASSES = {"d": DIGITS, "w": WORD, "s": SPACES}
CONTROLS = {"n": 10, "r": 13, "t": 9, "f": 12, "v": 11}
MARKS = {"A": r"\A", "z": r"\Z", "b": r"\b"}
PUNCTUATION = "!\"#$%&'()*+,-./:;<=>?@[\\]^_`{|}~"
NAMED = {
    "alnum": [(48, 57), (65, 90), (97, 122)], "alpha": [(65, 90), (97, 122)], "ascii": [(0, 127)],
    "blank": [(9, 9), (32, 32)], "cntrl": [(0, 31), (127, 127)], "digit": DIGITS, "graph": [(33, 126)],
    "lower": [(97, 122)], "print": [(32, 126)], "punct": [(33, 47), (58, 64), (91, 96), (123, 126)],
    "space": [(9, 13), (32, 32)], "upper": [(65, 90)], "word": WORD, "xdigit": [(48, 57), (65, 70), (97, 102)],
}
# what folds with an ASCII letter beside its other case
FOLDED = {"k": 0x212A, "s": 0x17F}
COUNT = re.compile(r"\{([0-9]+)(?:(,)([0-9]*))?\}")
GROUP = re.compile(r"\((?:\?:|\?P?<([A-Za-z_][A-Za-z0-9_]*)>)?")
NAMED_CLASS = re.compile(r"\[:([a-z]+):\]")


class BadPattern(Exception):
    """A pattern that is not taken, with the byte in it."""

    def __init__(self, byte: int):
        super().__init__(f"at {byte}")
        self.byte = byte


def folded(ranges: list[Any]) -> list[Any]:
    """Ranges with all cases of their ASCII letters."""
    found = list(ranges)
    for letter in "abcdefghijklmnopqrstuvwxyz":
        cases = [ord(letter), ord(letter.upper())]
        if any(low <= case <= high for case in cases for low, high in ranges):
            cases += [FOLDED[letter]] if letter in FOLDED else []
            found += [(case, case) for case in cases]
    return found


def others(ranges: list[Any]) -> list[Any]:
    """The code points outside these ranges."""
    found, least = [], 0
    for low, high in sorted(ranges):
        if low > least:
            found.append((least, low - 1))
        least = max(least, high + 1)
    return found + ([(least, LAST)] if least <= LAST else [])


class PatternReader:
    """A pattern that is read into a tree."""

    def __init__(self, pattern: str):
        self.pattern = pattern
        self.at = 0
        self.folds = self.dots_all = False
        self.names: set[Any] = set()

    def refuse(self, at: int) -> NoReturn:
        raise BadPattern(len(self.pattern[:at].encode()))

    def is_next(self, text: str) -> bool:
        return self.pattern.startswith(text, self.at)

    def whole(self) -> tuple[Any, ...]:
        if len(self.pattern.encode()) > MOST_BYTES:
            raise BadPattern(MOST_BYTES)
        while self.is_next("(?i)") or self.is_next("(?s)"):
            self.folds |= self.is_next("(?i)")
            self.dots_all |= self.is_next("(?s)")
            self.at += 4
        tree = self.either()
        if self.at < len(self.pattern):
            self.refuse(self.at)
        return tree

    def either(self) -> tuple[Any, ...]:
        found = [self.row()]
        while self.is_next("|"):
            self.at += 1
            found.append(self.row())
        return ("any", found)

    def row(self) -> tuple[Any, ...]:
        found = []
        while self.at < len(self.pattern) and self.pattern[self.at] not in "|)":
            found.append(self.repeated())
        return ("all", found)

    def repeated(self) -> tuple[Any, ...]:
        begins, part = self.at, self.atom()
        count = COUNT.match(self.pattern, self.at)
        if self.at == len(self.pattern) or not count and self.pattern[self.at] not in "*+?{":
            return part
        if not count and self.is_next("{") or part[0] == "mark":
            self.refuse(self.at)
        if count:
            least, comma, most = int(count[1]), count[2], count[3]
            greatest = int(most) if most else least if not comma else None
            self.at = count.end()
        else:
            least, greatest = {"*": (0, None), "+": (1, None), "?": (0, 1)}[self.pattern[self.at]]
            self.at += 1
        tree = ("repeat", part, least, greatest, bool(count), self.is_next("?"))
        self.at += self.is_next("?")
        again = COUNT.match(self.pattern, self.at)
        if again or self.at < len(self.pattern) and self.pattern[self.at] in "*+?{":
            self.refuse(self.at)
        if greatest is not None and least > greatest or not is_within(tree, MOST_COUNT):
            self.refuse(begins)
        return tree

    def atom(self) -> tuple[Any, ...]:
        begins, character = self.at, self.pattern[self.at]
        if character == "(":
            return self.group()
        if character == "[":
            return ("set", self.brackets())
        if character in "*+?{":
            self.refuse(begins)
        self.at += 1
        if character == ".":
            return ("set", [(0, LAST)] if self.dots_all else others([(10, 10)]))
        if character in "^$":
            return ("mark", r"\A" if character == "^" else r"\Z")
        if character == "\\":
            return self.escape(begins)
        return ("set", self.fold([self.literal(character, begins)]))

    def literal(self, character: str, at: int) -> tuple[Any, ...]:
        if self.folds and ord(character) > 127:
            self.refuse(at)
        return (ord(character), ord(character))

    def fold(self, ranges: list[Any]) -> list[Any]:
        return folded(ranges) if self.folds else ranges

    def group(self) -> tuple[Any, ...]:
        begins = self.at
        opening = GROUP.match(self.pattern, self.at)
        name = opening[1] if opening else None
        if not opening or self.pattern.startswith("?", opening.end()) or name in self.names:
            self.refuse(begins)
        self.names |= {name} if name else set()
        self.at = opening.end()
        tree = self.either()
        if not self.is_next(")"):
            self.refuse(begins)
        self.at += 1
        return tree

    def escape(self, begins: int) -> tuple[Any, ...]:
        """An escape outside brackets."""
        letter = self.pattern[self.at : self.at + 1]
        self.at += 1
        if letter in MARKS and letter:
            return ("mark", MARKS[letter])
        if letter.lower() in CLASSES and letter:
            ranges = self.fold(CLASSES[letter.lower()])
            return ("set", ranges if letter.islower() else others(ranges))
        return ("set", self.fold([self.escaped(letter, begins)]))

    def escaped(self, letter: str, begins: int) -> tuple[Any, ...]:
        if letter in CONTROLS:
            return (CONTROLS[letter], CONTROLS[letter])
        if not letter or letter not in PUNCTUATION:
            self.refuse(begins)
        return (ord(letter), ord(letter))

    def brackets(self) -> list[Any]:
        """The ranges of a class in brackets."""
        begins = self.at
        self.at += 1
        negated = self.is_next("^")
        self.at += negated
        first, found = self.at, []
        while not self.is_next("]"):
            if self.at == len(self.pattern):
                self.refuse(begins)
            found += self.member(first)
        if self.at == first:
            self.refuse(first)
        self.at += 1
        ranges = self.fold(found)
        return others(ranges) if negated else ranges

    def member(self, first: int) -> list[Any]:
        """The ranges of the next member of a class."""
        begins, named = self.at, NAMED_CLASS.match(self.pattern, self.at)
        if named:
            if named[1] not in NAMED:
                self.refuse(begins)
            self.at = named.end()
            return self.alone(NAMED[named[1]], begins)
        if self.is_next("\\") and self.pattern[begins + 1 : begins + 2] in ("d", "w", "s"):
            self.at += 2
            return self.alone(CLASSES[self.pattern[begins + 1]], begins)
        low, _ = self.end_of_range(first)
        if not self.is_next("-") or self.pattern.startswith("]", self.at + 1):
            return [(low, low)]
        self.at += 1
        high, _ = self.end_of_range(-1)
        if low > high:
            self.refuse(begins)
        return self.alone([(low, high)], begins)

    def alone(self, ranges: list[Any], begins: int) -> list[Any]:
        """Ranges that no `-` follows, but for one at the end."""
        if self.is_next("-") and not self.pattern.startswith("]", self.at + 1):
            self.refuse(begins)
        return ranges

    def end_of_range(self, first: int) -> tuple[Any, ...]:
        """A literal inside brackets; a `-` only at an end."""
        begins, character = self.at, self.pattern[self.at : self.at + 1]
        at_end = begins == first or self.pattern.startswith("]", begins + 1)
        if not character or character in "[]" or character == "-" and not at_end:
            self.refuse(begins)
        if character in "&~-" and self.pattern.startswith(character * 2, begins):
            self.refuse(begins)
        self.at += 1
        if character == "\\":
            self.at += 1
            return self.escaped(self.pattern[begins + 1 : begins + 2], begins)
        return self.literal(character, begins)


def is_within(tree: Any, room: int) -> bool:
    """Whether the counts of nested repetitions multiply to at most this."""
    if tree[0] in ("set", "mark"):
        return True
    if tree[0] != "repeat":
        return all(is_within(part, room) for part in tree[1])
    count = tree[2] if tree[3] is None else tree[3]
    if not tree[4] or count == 0:
        return is_within(tree[1], room)
    return count <= room and is_within(tree[1], room // count)


def can_be_empty(tree: Any) -> bool:
    """Whether a tree fits the empty text."""
    if tree[0] == "set":
        return False
    if tree[0] == "repeat":
        return tree[2] == 0 or can_be_empty(tree[1])
    if tree[0] == "mark":
        return True
    return (all if tree[0] == "all" else any)(can_be_empty(part) for part in tree[1])


def repeats_empty(tree: Any) -> bool:
    """Whether a repetition is over what fits the empty text, so that what is found is not defined."""
    if tree[0] == "repeat":
        return can_be_empty(tree[1]) or repeats_empty(tree[1])
    return tree[0] in ("all", "any") and any(map(repeats_empty, tree[1]))


def written(tree: Any) -> str:
    """A tree in Python's syntax."""
    if tree[0] == "set":
        ranges = "".join(f"\\U{low:08x}-\\U{high:08x}" for low, high in tree[1])
        return f"[{ranges}]" if ranges else "(?!)"
    if tree[0] == "mark":
        return tree[1]
    if tree[0] == "repeat":
        most = "" if tree[3] is None else tree[3]
        return f"(?:{written(tree[1])}){{{tree[2]},{most}}}{'?' if tree[5] else ''}"
    return "(?:" + ("|" if tree[0] == "any" else "").join(map(written, tree[1])) + ")"


def compiled(pattern: str, finds: bool = False) -> re.Pattern[str]:
    """A pattern for `re`, or why it is not taken; one that finds texts may not repeat the empty one."""
    tree = PatternReader(pattern).whole()
    if finds and repeats_empty(tree):
        raise BadPattern(0)
    return re.compile(written(tree), re.ASCII)


def found_all(pattern: str, text: str, most: int = -1) -> list[Any]:
    """The matches without overlap; an empty one directly after a match is none."""
    form, found, at, last = compiled(pattern, finds=True), [], 0, -1
    while at <= len(text):
        match = form.search(text, at)
        if not match:
            break
        if match.end() > match.start() or match.start() != last:
            found.append(match[0])
        last = match.end()
        at = match.end() + (match.end() == match.start())
    return found if most < 0 else found[:most]


def found_first(pattern: str, text: str) -> str:
    match = compiled(pattern, finds=True).search(text)
    return match[0] if match else ""


def matches(pattern: str, text: str) -> bool:
    return compiled(pattern).search(text) is not None
