"""Modules of JavaScript as one script: each is a function that returns what it exports, after those that it imports."""

import re
from dataclasses import dataclass, field
from pathlib import Path

from ..entry import Stop

IMPORT = re.compile(r'^import (?:\* as (?P<all>\w+)|\{(?P<some>[^}]*)\}) from "(?P<path>[^"]+)";\n', re.MULTILINE)
DECLARED = re.compile(r"^export (?:async )?(?:function\*?|class) (\w+)", re.MULTILINE)
CONSTANTS = re.compile(r"^export (?:const|let) (.*)$", re.MULTILINE)
CONSTANT = re.compile(r"(?:^|, )([A-Za-z_]\w*) = ")
LISTED = re.compile(r"^export \{([^}]*)\};\n", re.MULTILINE)
# lines that are comments alone, and those of longer comments
COMMENT = re.compile(r"^[ \t]*(?://[^\n]*|/\*\*(?:(?!\*/).)*\*/)\n", re.MULTILINE | re.DOTALL)
# what would end or change the element that holds a script
ENDS = re.compile(r"</script|<!--", re.IGNORECASE)


@dataclass
class Bundle:
    """The modules that were taken: their names in the bundle by their files, and their texts in order."""

    names: dict[Path, str] = field(default_factory=dict)
    texts: list[str] = field(default_factory=list)

    def take(self, path: Path) -> str:
        """Takes a module with those that it imports; returns its name in the bundle."""
        if path not in self.names:
            self.names[path] = f"$module{len(self.names)}"
            text = path.read_text(encoding="utf-8")
            imports = "".join(self.imported(path, found) for found in IMPORT.finditer(text))
            body = COMMENT.sub("", unexported(IMPORT.sub("", text)))
            exported = ", ".join(exports_of(text))
            self.texts.append(f"const {self.names[path]} = (() => {{\n{imports}{body}return {{ {exported} }};\n}})();\n")
        return self.names[path]

    def imported(self, path: Path, found: re.Match[str]) -> str:
        """The line that declares what a module imports from another."""
        name = self.take((path.parent / found["path"]).resolve())
        if found["all"]:
            return f"const {found['all']} = {name};\n"
        some = ", ".join(one.strip().replace(" as ", ": ") for one in found["some"].split(",") if one.strip())
        return f"const {{ {some} }} = {name};\n"


def unexported(text: str) -> str:
    """A text without the word `export`."""
    return re.sub(r"^export (?=async |function|class|const|let)", "", LISTED.sub("", text), flags=re.MULTILINE)


def exports_of(text: str) -> list[str]:
    """The names that a module exports."""
    found = DECLARED.findall(text)
    for line in CONSTANTS.findall(text):
        # what follows the first name is another only if it is written in capitals
        first, *others = CONSTANT.findall(line)
        found += [first, *(one for one in others if one.isupper())]
    for names in LISTED.findall(text):
        found += [one.strip() for one in names.split(",") if one.strip()]
    return found


def bundled(path: Path) -> str:
    """The script of a module and of all that it imports."""
    bundle = Bundle()
    bundle.take(path.resolve())
    text = '"use strict";\n' + "".join(bundle.texts)
    if found := ENDS.search(text):
        raise Stop(f"{path}: a module has {found[0]!r}, which a page cannot hold")
    return text
