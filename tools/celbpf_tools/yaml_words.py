"""What is wrong with a text in YAML, in the words of one who writes it; PyYAML's parsers have words of their own.

Both of its parsers are known: that of libyaml and that in Python, whose words differ.
"""

import re
from typing import Any

# what no plain text begins with
INDICATORS = {"@": "`@`", "%": "`%`", "`": "a backtick"}
# a line that begins with a key, after the dash of an item
KEY = re.compile(r"\s*(?:- +)*[^\s:#'\"{\[][^:#]*:(?:\s|$)")
TAG = re.compile(r"the tag '([^']*)'")
NOT_ALLOWED = re.compile("[\x00-\x08\x0b\x0c\x0e-\x1f\x7f]")
QUOTE = "; put it into quotes"
# a mapping value, as in `a: b: c` or `message: no: way`
COLON = f"a text has `: ` in it{QUOTE}"
DEEPER = "this line is indented more than the one before it, whose value is a text; indent both alike"


def placed(words: str, where: str) -> str:
    """Words with a place, which is put before what to do."""
    fault, mark, advice = words.partition("; ")
    return f"{fault} at {where}{mark}{advice}"


class Words:
    """The words of a fault: the text, the parser's problem, and the places, counted from 0, of what it was at and of its begin."""

    def __init__(self, text: str, why: Any):
        mark, begin = getattr(why, "problem_mark", None), getattr(why, "context_mark", None)
        self.problem = str(getattr(why, "problem", None) or getattr(why, "reason", None) or why)
        self.context = str(getattr(why, "context", None) or "")
        self.lines = text.split("\n")
        self.line, self.column = (mark.line, mark.column) if mark else (-1, 0)
        self.begin = begin.line if begin else self.line

    def at(self, line: int) -> str:
        """The text of a line, empty if there is none."""
        return self.lines[line] if 0 <= line < len(self.lines) else ""

    @property
    def rest(self) -> str:
        """The line from the place on."""
        return self.at(self.line)[self.column :]

    @property
    def before(self) -> str:
        """The line up to the place."""
        return self.at(self.line)[: self.column]

    def told(self) -> str:
        """What is wrong, or the parser's words."""
        line = self.at(self.line)
        if "\t" in line[: len(line) - len(line.lstrip())]:
            return "a tab is no indentation; write blanks"
        for kind in (self.of_tag, self.of_value, self.of_begin, self.of_quotes, self.of_brackets, self.of_keys):
            if words := kind():
                return words
        return self.problem

    def of_tag(self) -> str:
        """A tag, as `!has(a)` in a text that is not quoted is one."""
        found = TAG.search(self.problem) if "constructor" in self.problem else None
        if not found:
            return ""
        return f"a text begins with `!`, and is read as the tag `{found[1].replace('tag:yaml.org,2002:', '!!')}`{QUOTE}"

    def of_value(self) -> str:
        """A colon and a blank where no key can end."""
        if "mapping values are not allowed" not in self.problem:
            return ""
        return COLON if ":" in self.before.lstrip("- ") or not KEY.match(self.at(self.line)) else DEEPER

    def of_begin(self) -> str:
        """What begins with a character that has a meaning in YAML."""
        if "cannot start any token" in self.problem and self.rest[:1] in INDICATORS:
            return f"a text begins with {INDICATORS[self.rest[0]]}{QUOTE}"
        if "undefined alias" in self.problem:
            return f"a text begins with `*`, and is read as a name that no `&` before it gives{QUOTE}"
        if "unhashable key" in self.problem:
            return f"a key is a list or a map; put a text that begins with `{self.rest[:1] or '{'}` into quotes"
        found = NOT_ALLOWED.search("\n".join(self.lines)) if "characters are not allowed" in self.problem else None
        return f"the character U+{ord(found[0]):04X} is not allowed in YAML" if found else ""

    def of_quotes(self) -> str:
        """Quoted texts."""
        if "unknown escape character" in self.problem:
            found = re.search(r"\\.", self.rest) or re.search(r"\\.", self.at(self.line))
            escape = found[0] if found else "\\"
            return f"`{escape}` is no escape in double quotes; write `\\{escape}`, or single quotes"
        if "quoted scalar" in self.context and ("end of stream" in self.problem or "document separator" in self.problem):
            return f"the quoted text that begins in line {self.begin + 1} does not end"
        if self.is_unexpected and self.before.rstrip().endswith(("'", '"')):
            return "text follows the closing quote; in single quotes write `''` for `'`, in double quotes `\\\"` for `\"`"
        return ""

    def of_brackets(self) -> str:
        """Lists and maps in brackets."""
        if re.search(r"expected ',' or '[\]}]'", self.problem):
            bracket = "[" if "']'" in self.problem else "{"
            return f"the `{bracket}` of line {self.begin + 1} is not closed, or a comma is missing"
        if "node content" in self.problem:
            return "a value is missing, or a bracket before it is not closed"
        if self.is_unexpected and self.rest[:1] in ("]", "}"):
            return f"`{self.rest[0]}` closes no bracket"
        return ""

    def of_keys(self) -> str:
        """Lines that are no part of what is before them."""
        if "could not find expected ':'" in self.problem:
            return f"line {self.begin + 1} is neither a key, which ends with `:`, nor indented as part of a text"
        if self.is_unexpected and not self.before.strip():
            dash = "an item of a list is where a key has to be" if self.rest.startswith("- ") else ""
            return dash or "this line is indented neither as the lines before it nor as a part of them"
        return ""

    @property
    def is_unexpected(self) -> bool:
        """Whether something is where another thing has to be."""
        return bool(re.search(r"did not find expected (key|<|'-')|expected '?<|expected the", self.problem))


def told(text: str, why: Any) -> str:
    """What is wrong with a text of which a parser of PyYAML says so."""
    return Words(text, why).told()
