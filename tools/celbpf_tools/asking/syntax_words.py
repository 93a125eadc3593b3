"""What is meant where a text is no expression of CEL, by the slips that are common."""

import re
from typing import Optional

from .refused import MEANINGS

# words of other languages, and what CEL has instead
WORDS = {
    "and": "`&&`", "or": "`||`", "not": "`!`", "is": "`==`", "eq": "`==`", "ne": "`!=`", "if": "`c ? a : b`", "then": "`c ? a : b`",
    "else": "`c ? a : b`", "xor": "`!=` of two bools",
}
CLOSING = {")": "(", "]": "[", "}": "{"}
# a text literal, or a bracket
PIECE = re.compile(r"""r?'''.*?'''|r?\"\"\".*?\"\"\"|r'[^']*'|r"[^"]*"|'(?:[^'\\]|\\.)*'|"(?:[^"\\]|\\.)*"|[()\[\]{}]""", re.DOTALL)
WORD = re.compile(r"[A-Za-z_]\w*")
# a field of what may be null, as other languages write it
CHAINED = re.compile(r"[\w\])]\?\.[A-Za-z_]")
LAST_WORD = re.compile(r"([A-Za-z_]\w*)\s*$")


def open_brackets(text: str) -> list[tuple[str, int]]:
    """The brackets that are open at the end of a text, each with its place."""
    found: list[tuple[str, int]] = []
    for piece in PIECE.finditer(text):
        if piece[0] in CLOSING.values():
            found.append((piece[0], piece.start()))
        elif piece[0] in CLOSING and found and found[-1][0] == CLOSING[piece[0]]:
            found.pop()
    return found


def of_character(text: str, at: int) -> Optional[str]:
    """What to write for a character that begins no token."""
    if text[at : at + 1] == "=":
        return "`==`"
    return {"&": "`&&`", "|": "`||`", "^": "`!=` of two bools", "“": "`\"`", "”": "`\"`", "‘": "`'`", "’": "`'`"}.get(text[at : at + 1])


def of_token(text: str, at: int) -> tuple[str, str]:
    """What is wrong with a token that does not fit, and what to write; both empty if that is not known."""
    here, before = text[at:], text[:at]
    word = WORD.match(here)
    if word and word[0] in WORDS:
        return f"`{word[0]}` is no operator here", WORDS[word[0]]
    last = LAST_WORD.search(before)
    if last and last[1] in ("not", "if") and here:
        return f"`{last[1]}` is no operator here", WORDS[last[1]]
    if before.endswith(".?") and here[:1] in ("'", '"'):
        quote = here[0]
        return "a name follows `.?`", f"`[?{quote}{here.split(quote)[1]}{quote}]`"
    if here.startswith(">") and before.endswith("<"):
        return "`<>` is no operator here", "`!=`"
    if here.startswith("?") and before.endswith("?"):
        return "`??` is no operator here", "`.?` before the field, and `.orValue(..)` after it"
    opened = open_brackets(before)
    if here.startswith(",") and opened and re.search(r"\bin\s*$", before[: opened[-1][1]]):
        return "a list has square brackets", "`in ['a', 'b']`"
    return of_brackets(text, at, opened)


def of_brackets(text: str, at: int, opened: list[tuple[str, int]]) -> tuple[str, str]:
    """What is wrong with brackets."""
    here = text[at : at + 1]
    if not text.strip():
        return "the text is empty", ""
    if here in CLOSING and not opened:
        return f"no bracket is open that `{here}` closes", ""
    if not text[at:].strip() and opened:
        mark, place = opened[-1]
        return f"the `{mark}` in column {place + 1} of the text is not closed", ""
    if not text[at:].strip() and CHAINED.search(text):
        return "`?.` is no operator here", "`.?`"
    if not text[at:].strip():
        return "the text ends too early", ""
    return "", ""


def told(cause: str, text: str, at: int) -> tuple[str, str]:
    """What P1 or P4 at a place means, and what to write instead or no text."""
    if cause == "P1":
        return MEANINGS[cause], of_character(text, at) or ""
    meaning, hint = of_token(text, at)
    return meaning or MEANINGS[cause], hint
