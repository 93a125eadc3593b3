"""The changes of one definition: each leaves its type and turns its meaning in one place."""

import re
from typing import Iterator, Optional

from .change import Change
from .types import of_type

NUMBER = re.compile(r"(?<![\w.\"'◌])(0x[0-9a-fA-F_]+|[0-9][0-9_]*)(?![\w.\"'])")
# words of which one can stand for the other, by the kind of the change
WORDS = [
    ("order", "nat_lt", "nat_le"), ("order", "int_lt", "int_le"), ("end", "take", "drop"), ("end", "min", "max"),
    ("truth", "true", "false"), ("bits", "bit_and", "bit_or"), ("quantifier", "list_any", "list_all"),
]
# operators, which have a blank on both sides
SIGNS = [
    ("order", "<", "≤"), ("connective", "&&", "||"), ("connective", "×", "⊎"), ("arithmetic", "+", "-"),
    ("arithmetic", "*", "+"), ("arithmetic", "/", "%"), ("arithmetic", "+ℤ", "-ℤ"),
]
NAME = r"[a-z_]\w*"
ATOM = r"(?:\([^()]*\)|[\w◌'.]+)"
OPERAND = rf"(?!(?:if|then|else|in|let)\b){ATOM}"
NEIGHBOURS = re.compile(rf"(?<=[\w)] )({NAME}) ({NAME})(?= |$|\)|;|,)")
OPERANDS = re.compile(rf"({ATOM}) (-|-ℤ|\+\+|/|%|<|≤) ({ATOM})")
BRANCHES = re.compile(rf"then ({ATOM}) else ({ATOM})(?=$|[ )])")
VARIANTS = re.compile(r"use \S+?(?:TheVariants)?(?: as (\w+)|\.\{(.*)\})$")
# a test of a chain with its result
TEST = re.compile(r"(.*?(?:^| |\()if )([^\n]+ then (?:(?! else ).)+)$")
# one of many values of a word, of which no two are the same
VALUE = re.compile(r"([^()]+) == \S+ then ")
KEYWORDS = ("if", "then", "else", "in", "let", "where", "record")


def groups(text: str) -> list[list[str]]:
    """The variants of a type that a file imports together: one can stand for another."""
    found = []
    for line in text.splitlines():
        imported = VARIANTS.match(line) if "TheVariants" in line else None
        if imported and imported[2]:
            names = [name for name in imported[2].split(", ") if name.startswith("TheVariants.") or ".TheVariants.{" in line]
            found.append([name.removeprefix("TheVariants.").split(" as ")[-1] for name in names])
        elif imported:
            used = re.findall(rf"(?<![\w.]){imported[1]}\.([A-Z]\w*)", text)
            found.append([f"{imported[1]}.{name}" for name in dict.fromkeys(used)])
    return [group for group in found if len(group) > 1]


def is_quoted(text: str, at: int) -> bool:
    """Whether a place is inside a text literal."""
    return text[:at].count('"') % 2 == 1


def replaced(text: str, match: re.Match[str], new: str) -> str:
    return text[: match.start()] + new + text[match.end() :]


def of_numbers(text: str) -> Iterator[tuple[str, str]]:
    """Each number, by one more and by one less."""
    for match in NUMBER.finditer(text):
        if is_quoted(text, match.start()) or text[: match.start()].endswith("Type "):
            continue
        number = int(match[1].replace("_", ""), 0)
        for other in (number + 1, number - 1):
            if other >= 0:
                yield "number", replaced(text, match, str(other))


def of_words(text: str) -> Iterator[tuple[str, str]]:
    """Words and operators for their partners."""
    for kind, one, other in WORDS:
        for old, new in ((one, other), (other, one)):
            for match in re.finditer(rf"(?<![\w.'◌\"]){old}(?![\w.'◌])", text):
                yield kind, replaced(text, match, new)
    for kind, one, other in SIGNS:
        for old, new in ((one, other), (other, one)) if one != "*" else ((one, other),):
            for match in re.finditer(rf"(?<= ){re.escape(old)}(?= )", text):
                yield kind, replaced(text, match, new)


def of_places(text: str) -> Iterator[tuple[str, str]]:
    """Arguments, operands and branches for each other."""
    for match in NEIGHBOURS.finditer(text):
        if match[1] != match[2] and not {match[1], match[2]} & set(KEYWORDS) and not text[: match.start()].endswith(("if ", "in ")):
            yield "arguments", replaced(text, match, f"{match[2]} {match[1]}")
    for match in OPERANDS.finditer(text):
        if match[1] != match[3]:
            yield "operands", replaced(text, match, f"{match[3]} {match[2]} {match[1]}")
    for match in BRANCHES.finditer(text):
        yield "branches", replaced(text, match, f"then {match[2]} else {match[1]}")


def of_conjunctions(text: str) -> Iterator[tuple[str, str]]:
    """One side of each sign that joins truths or statements, without the other."""
    for sign in ("&&", "×"):
        for match in re.finditer(rf"(?<![\w◌'.)])({OPERAND}(?: {OPERAND})*?) {sign} ", text):
            yield "part", text[: match.start()] + text[match.end() :]
        for match in re.finditer(rf" {sign} ({OPERAND}(?: {OPERAND})*)(?=$|[);]| then )", text):
            yield "part", text[: match.start()] + text[match.end() :]


def of_variants(text: str, of_file: list[list[str]]) -> Iterator[tuple[str, str]]:
    """Each variant for the next of its group."""
    for group in of_file:
        for at, name in enumerate(group):
            for match in re.finditer(rf"(?<![\w.◌']){re.escape(name)}(?![\w.])", text):
                yield "variant", replaced(text, match, group[(at + 1) % len(group)])


def of_result(text: str, of_file: list[list[str]]) -> Iterator[tuple[str, str]]:
    """The changes of a result, or of a part of one."""
    for found in (of_numbers(text), of_words(text), of_places(text), of_conjunctions(text), of_variants(text, of_file)):
        yield from found


def result_begins(line: str, name: str) -> Optional[int]:
    """Where the result of a clause begins; 0 in a line that goes on, `None` in a head."""
    if re.match(rf"\s*{re.escape(name)}(?= |$)", line):
        end = re.search(r" =(?: |$)", line)
        return end.end() if end else None
    return 0 if line.startswith(" ") and not re.match(r"\s*(?:\w+ )*pub .* :", line) else None


def clauses(lines: list[str], name: str) -> list[tuple[int, int]]:
    """The clauses of a function, as the first line of each and the line after its last."""
    begins = [at for at, line in enumerate(lines) if result_begins(line, name) not in (None, 0)]
    return list(zip(begins, [*begins[1:], len(lines)]))


def variables(text: str) -> set[str]:
    """The words of a text that may be variables."""
    return set(re.findall(rf"(?<![\w.]){NAME}(?![\w.])", text))


def split(line: str, name: str) -> tuple[str, str]:
    """The left side of a clause's first line with its `=`, and what follows."""
    at = result_begins(line, name) or 0
    return line[:at], line[at:]


def fits(result: str, own: str, other: str) -> bool:
    """Whether the variables of a result that its own left side binds are bound by another left side too."""
    return variables(result) & variables(own) <= variables(other)


def of_clauses(lines: list[str], place: int, name: str) -> Iterator[Change]:
    """Neighbouring clauses that exchange their results, or of which one has the other's, or that a general one stands for."""
    found = clauses(lines, name)
    for (begin, middle), (_, end) in zip(found, found[1:]):
        if middle - begin != 1 or end - middle != 1:
            continue
        (left, result), (other_left, other) = split(lines[begin], name), split(lines[middle], name)
        old = (lines[begin], lines[middle])
        if result == other:
            continue
        moves_down, moves_up = fits(result, left, other_left), fits(other, other_left, left)
        if moves_down and moves_up:
            yield Change("results", place + begin, old, (left + other, other_left + result))
        if moves_up:
            yield Change("merge", place + begin, old, (left + other, other_left + other))
        if moves_down:
            yield Change("merge", place + begin, old, (left + result, other_left + result))
    if found and "_" in split(lines[found[-1][0]], name)[0].split():
        for begin, end in found[:-1]:
            yield Change("case", place + begin, tuple(lines[begin:end]), ())


def are_apart(one: str, other: str) -> bool:
    """Whether no value passes both tests, so that their order says nothing."""
    values = VALUE.match(one), VALUE.match(other)
    return bool(values[0] and values[1] and values[0][1] == values[1][1])


def of_tests(lines: list[str], place: int) -> Iterator[Change]:
    """Neighbouring tests of a chain, each on a line of its own with its result, in the other order."""
    for at, pair in enumerate(zip(lines, lines[1:])):
        one, other = (TEST.match(line) for line in pair)
        if one and other and one[2] != other[2] and not are_apart(one[2], other[2]):
            yield Change("tests", place + at, pair, (one[1] + other[2], other[1] + one[2]))


def of_definition(text: str, place: int, size: int, name: str) -> list[Change]:
    """The changes of a definition of a file: its first line's number, how many lines it has, and its name."""
    lines = text.split("\n")[place - 1 : place - 1 + size]
    if re.match(r" *(?:\w+ )*(?:data|record) ", lines[0]):
        return list(of_type(lines, place))
    word, of_file, found = name.split("◌")[0] or name, groups(text), []
    for at, line in enumerate(lines):
        code, dash, comment = line.partition("  -- ")
        begin = result_begins(code, word)
        if begin is None or at == 0:
            continue
        for kind, new in of_result(code[begin:], of_file):
            found.append(Change(kind, place + at, (line,), (code[:begin] + new + dash + comment,)))
    found += [*of_clauses(lines, place, word), *of_tests(lines, place)]
    return [change for change in dict.fromkeys(found) if change.old != change.new]
