"""The tokens of all of CEL, to see which of an expression's forms the profile does not have.

It is written after cel-spec's lexis, and shares nothing with the evaluator or the crates: a form that it names is out
of the profile by what is written, whatever the program says of it.
"""

import re
from typing import Any, Iterator, Optional

TEXT = (
    r'[rR]?(?:"""(?:\\.|[^\\])*?"""|\'\'\'(?:\\.|[^\\])*?\'\'\')|'
    r'[rR]?(?:"(?:\\.|[^\\"\n\r])*"|\'(?:\\.|[^\\\'\n\r])*\')'
)
RAW = r'[bB]?[rR][bB]?(?:"""[\s\S]*?"""|\'\'\'[\s\S]*?\'\'\'|"[^"\n\r]*"|\'[^\'\n\r]*\')'
TOKEN = re.compile(
    rf"(?P<gap>(?:[ \t\n\f\r]|//[^\n]*)+)"
    rf"|(?P<raw>{RAW})|(?P<bytes>[bB](?:{TEXT}))|(?P<text>{TEXT})"
    r"|(?P<double>[0-9]*\.[0-9]+(?:[eE][-+]?[0-9]+)?|[0-9]+[eE][-+]?[0-9]+)"
    r"|(?P<uint>(?:0x[0-9a-fA-F]+|[0-9]+)[uU])|(?P<int>0x[0-9a-fA-F]+|[0-9]+)"
    r"|(?P<name>[_a-zA-Z][_a-zA-Z0-9]*)|(?P<quoted>`[^`\n]*`)"
    r"|(?P<mark>\|\||&&|<=|>=|==|!=|[?:<>+\-*/%!.,()\[\]{}])",
    re.S,
)
LITERALS = {"bytes": "bytes literal", "double": "double literal", "uint": "uint literal", "quoted": "escaped field name"}
# what an operand can end with: a dot directly behind it selects, and a brace does not begin a message
ENDS = (")", "]", "}")
WORDS = ("in", "true", "false", "null")


def tokens(text: str) -> Optional[list[Any]]:
    """The tokens as pairs of kind and text; `None` where the text has none of CEL's at some place."""
    found, at = [], 0
    while at < len(text):
        match = TOKEN.match(text, at)
        if match is None:
            return None
        at = match.end()
        if match.lastgroup != "gap":
            found.append((match.lastgroup, match.group()))
    return found


def reasons(found: list[Any]) -> Iterator[str]:
    """Why tokens are not in the profile, from the left."""
    before: tuple[Any, ...] = ("mark", "(")
    for kind, word in found:
        if kind == "raw" and "b" in word.lower()[:2]:
            yield LITERALS["bytes"]
        elif kind in ("raw", "text") and word.lstrip("rR")[:3] in ('"""', "'''"):
            yield "triple-quoted text"
        elif kind in LITERALS:
            yield LITERALS[kind]
        elif word == "?" and before[1] in (".", "[", "{", ","):
            yield "optional value"
        elif word == "." and not ends_operand(before):
            yield "leading dot"
        elif word == "{" and before[0] == "name" and before[1] not in WORDS:
            yield "message literal"
        before = kind, word


def ends_operand(token: tuple[Any, ...]) -> bool:
    """Whether an operand can end with this token."""
    kind, word = token
    return word in ENDS if kind == "mark" else word != "in"


def reason(text: str) -> Optional[str]:
    """The first reason why a text is not in the profile by its tokens."""
    found = tokens(text)
    return None if found is None else next(reasons(found), None)
