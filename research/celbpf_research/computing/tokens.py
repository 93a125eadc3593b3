"""The tokens of the language of the definitions."""

import re
from typing import Any, NamedTuple

PART = r"[^\s(){}.;,@\"«»]+"
TOKEN = re.compile(
    rf"""\s*(?:(?P<text>"(?:\\.|[^"\\])*")
    |(?P<number>0x[0-9a-fA-F_]+|[0-9][0-9_]*(?![^\s(){{}}.;,@"«»]))
    |(?P<mark>[(){{}};,@]) | (?P<dot>\.) | «(?P<escaped>[^»]*)» | (?P<name>{PART}))""",
    re.X,
)
FIELD = re.compile(rf"\.({PART})")
ESCAPES = {"n": "\n", "t": "\t", "r": "\r", "0": "\0", "\\": "\\", '"': '"', "'": "'"}


class NotRead(Exception):
    """Something that this reader does not know."""


class Token(NamedTuple):
    """A token; a path `a.b.c` is one, and so is a field after a bracket."""

    kind: str
    value: Any


def without_comment(line: str) -> str:
    """The line up to `--`, if that is in no text."""
    quoted, at = False, 0
    while at < len(line):
        if quoted and line[at] == "\\":
            at += 1
        elif line[at] == '"':
            quoted = not quoted
        elif not quoted and line.startswith("--", at) and (at == 0 or line[at - 1] in " ("):
            return line[:at].rstrip()
        at += 1
    return line.rstrip()


def meant(text: str) -> str:
    """A text literal without its quotes, with its escapes replaced."""
    out, at = [], 0
    while at < len(text):
        letter = text[at]
        if letter != "\\":
            out.append(letter)
            at += 1
        elif text[at + 1] == "x":
            out.append(chr(int(text[at + 2 : at + 4], 16)))
            at += 4
        elif text[at + 1] == "u":
            end = text.index("}", at)
            out.append(chr(int(text[at + 3 : end], 16)))
            at = end + 1
        else:
            out.append(ESCAPES[text[at + 1]])
            at += 2
    return "".join(out)


def fields(text: str, at: int) -> tuple[list[str], int]:
    """The fields that follow at once, each after a dot, and where they end."""
    found = []
    while match := FIELD.match(text, at):
        found.append(match[1])
        at = match.end()
    return found, at


def tokens(text: str) -> list[Token]:
    """The tokens of a text without comments."""
    found: list[Token] = []
    at = 0
    while text[at:].strip():
        match = TOKEN.match(text, at)
        if not match:
            raise NotRead(text[at : at + 30])
        kind, at = match.lastgroup, match.end()
        if kind == "dot":
            is_field = bool(found) and found[-1].value == ")" and match.start("dot") == match.start()
            after, end = fields(text, match.start("dot")) if is_field else ([], at)
            found += [Token("field", name) for name in after] or [Token("dot", ".")]
            at = end if after else at
        elif kind in ("name", "escaped"):
            after, at = fields(text, at)
            found.append(Token("path", (match[kind], *after)) if after else Token("name", match[kind]))
        elif kind == "text":
            found.append(Token("text", meant(match[kind][1:-1])))
        elif kind == "number":
            found.append(Token("number", int(match[kind].replace("_", ""), 0 if match[kind][:2] == "0x" else 10)))
        else:
            found.append(Token("mark", match["mark"]))
    return found
