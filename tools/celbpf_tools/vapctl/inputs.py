"""Files, folders and standard input, as objects with their file and line.

An input is JSON or YAML, of one or more documents. Objects of a `List` are taken one by one.
"""

import os
import re
import sys
from dataclasses import dataclass
from json import JSONDecodeError
from pathlib import Path
from typing import Any, Callable, Iterable, Iterator, Optional

from ..manifests.sending import with_name_label
from ..yaml_words import placed
from . import yaml_texts
from .json_texts import documents_of, looks_like_json, place_of
from .located import Document, Located
from .no_manifests import advice, names_kind, tool_for, why_no_object
from .numbers import NotJson, sent

STDIN = "-"
# how standard input is called in messages and reports
STDIN_NAME = "stdin"
# how an action of a template begins, which a map in a map seldom does
ACTION = re.compile(r"\{\{[- .]")
TEMPLATE = "; if it is a template of a chart, give what `helm template` prints"
# the files that are taken of a folder
SUFFIXES = (".yaml", ".yml", ".json")


@dataclass(frozen=True, order=True)
class Place:
    """A file, and a line in it; 0 if the line is not known."""

    file: str
    line: int = 0

    def __str__(self) -> str:
        return f"{self.file}:{self.line}" if self.line else self.file


@dataclass
class Trouble:
    """What cannot be read, or is not an object: where, and why."""

    place: Place
    why: str

    def __str__(self) -> str:
        return f"{self.place}: {self.why}"


@dataclass
class Thing:
    """An object of a cluster, or of a document that looks like one, and where it is."""

    value: dict[str, Any]
    place: Place

    @property
    def api_version(self) -> str:
        return str(self.value["apiVersion"])

    @property
    def kind(self) -> str:
        return str(self.value["kind"])

    @property
    def group(self) -> str:
        return self.api_version.rpartition("/")[0]

    @property
    def metadata(self) -> dict[str, Any]:
        metadata = self.value.get("metadata")
        return metadata if isinstance(metadata, dict) else {}

    @property
    def name(self) -> str:
        """The name, or the begin of one that is to be generated."""
        name = self.metadata.get("name")
        begin = self.metadata.get("generateName")
        return str(name) if name else f"{begin}*" if begin else ""

    @property
    def namespace(self) -> str:
        return str(self.metadata.get("namespace") or "")

    @property
    def title(self) -> str:
        """The kind with namespace and name."""
        named = f"{self.namespace}/{self.name}" if self.namespace else self.name
        return f"{self.kind} {named}".rstrip()


class Inputs:
    """What the words of a command name; each file is read once, and standard input may be named once."""

    def __init__(self, keeps_texts: bool = False) -> None:
        self.troubles: list[Trouble] = []
        self.has_stdin = False
        # which documents are taken of the files of a folder
        self.is_taken: Callable[[Any], bool] = names_kind
        # the files of folders that have another document, with the tool that makes objects of it if there is one
        self.passed: dict[str, str] = {}
        # the text of each file, if they are kept
        self.keeps_texts = keeps_texts
        self.texts: dict[str, str] = {}

    def things(self, words: Iterable[str], seen: Optional[set[str]] = None) -> list[Thing]:
        """The objects of files and folders, in their order; what cannot be read is among the troubles. A file that is named
        twice, or that is in `seen` since it was read before, counts once.
        """
        found: list[Thing] = []
        seen = set() if seen is None else seen
        for name in dict.fromkeys(words):
            for file in self.files(name):
                real = real_path(file)
                if file == STDIN or real not in seen:
                    found += self.of_file(file, file != name)
                    seen.add(real)
        return found

    def trouble(self, file: str, line: int, why: str) -> None:
        self.troubles.append(Trouble(Place(file, line), why))

    def files(self, name: str) -> Iterator[str]:
        """The files of a word: those of a folder and the folders below, or the one that it names."""
        if name == STDIN or not os.path.isdir(name):
            yield name
            return
        found: list[str] = []
        for folder, folders, files in os.walk(name, onerror=self.unread_folder):
            folders[:] = sorted(one for one in folders if not one.startswith("."))
            found += [os.path.join(folder, one) for one in files if one.endswith(SUFFIXES) and not one.startswith(".")]
        if not found:
            self.trouble(name, 0, f"no file *{', *'.join(SUFFIXES)} in it or below")
        yield from sorted(found)

    def unread_folder(self, why: OSError) -> None:
        self.trouble(str(why.filename), 0, why.strerror or str(why))

    def of_file(self, file: str, is_of_folder: bool) -> list[Thing]:
        """The objects of a file. In a file of a folder, documents that name no kind of object are passed over."""
        name = STDIN_NAME if file == STDIN else file
        found: list[Thing] = []
        try:
            text = self.text(file)
            if self.keeps_texts:
                self.texts[name] = text
            found = self.of_text(name, text, is_of_folder)
        except Unread as why:
            self.trouble(name, why.line, why.why)
        return found

    def of_text(self, name: str, text: str, is_of_folder: bool = False) -> list[Thing]:
        """The objects of a text, up to where it cannot be read."""
        found: list[Thing] = []
        try:
            for document in self.documents(name, text):
                if not is_of_folder or self.is_taken(document.value):
                    found += self.of_document(name, document)
                else:
                    self.passed.setdefault(name, tool_for(name, document.value))
        except Unread as why:
            self.trouble(name, why.line, why.why)
        return found

    def text(self, file: str) -> str:
        """The text of a file, or of standard input."""
        try:
            return self.bytes(file).decode("utf-8-sig")
        except OSError as why:
            raise Unread(why.strerror or str(why)) from why
        except UnicodeDecodeError as why:
            raise Unread(f"byte {why.start} is not UTF-8") from why
        except ValueError as why:
            raise Unread(str(why)) from why

    def bytes(self, file: str) -> bytes:
        """The bytes of a file; standard input has them once."""
        if file != STDIN:
            return Path(file).read_bytes()
        if self.has_stdin:
            raise Unread("it is named twice, and can be read once")
        self.has_stdin = True
        return sys.stdin.buffer.read()

    def documents(self, name: str, text: str) -> Iterator[Document]:
        """The documents of a text."""
        try:
            if not looks_like_json(text):
                raise JSONDecodeError("Expecting value", text, 0)
            yield from list(documents_of(text))
        except JSONDecodeError as why:
            line, column = place_of(text, why.pos)
            told = f"{why.msg[:1].lower()}{why.msg[1:].removesuffix(' at')} at column {column}"
            yield from self.yaml_documents(name, text, Unread(told, line))
        except ValueError as why:
            told = "a number has more than 4,300 digits" if "digits" in str(why) else str(why)
            raise Unread(told) from why
        except RecursionError as why:
            raise Unread("it is nested too deep") from why

    def yaml_documents(self, name: str, text: str, fault: "Unread") -> Iterator[Document]:
        """The documents of a text that is no JSON for this reason."""
        is_json = name.endswith(".json")
        if is_json or not yaml_texts.has_yaml():
            needs = "" if is_json else "; YAML needs PyYAML (Debian's python3-yaml)"
            raise Unread(fault.why + needs, fault.line)
        try:
            # one by one, so that the documents before one that cannot be read are checked too
            yield from yaml_texts.documents_of(text)
        except yaml_texts.NotRead as why:
            if looks_like_json(text) and not name.endswith(yaml_texts.NAMES):
                raise fault from why
            told = placed(why.why, f"column {why.column}") if why.column else why.why
            raise Unread(told + TEMPLATE * bool(ACTION.search(text)), why.line) from why

    def of_document(self, name: str, document: Document) -> Iterator[Thing]:
        """The objects of a document."""
        value = document.value
        kind = value.get("kind") if isinstance(value, dict) else None
        if document.items is None or not isinstance(kind, str) or not kind.endswith("List"):
            yield from self.of_value(name, Located(value, document.line), document.has_floats)
            return
        own = {"apiVersion": value.get("apiVersion"), "kind": kind.removesuffix("List")}
        for item in document.items:
            if own["kind"] and isinstance(item.value, dict):
                item.value = {**own, **item.value}
            yield from self.of_value(name, item, document.has_floats)

    def of_value(self, name: str, located: Located, has_floats: bool) -> Iterator[Thing]:
        """The object that a value is, or those of a list in a list."""
        place = Place(name, located.line)
        try:
            value = sent(located.value) if has_floats else located.value
        except NotJson as why:
            self.troubles.append(Trouble(place, str(why)))
            return
        waiting = [value]
        while waiting:
            one = waiting.pop(0)
            if fault := why_no_object(one):
                self.troubles.append(Trouble(place, "; ".join(filter(None, (fault, advice(name, one))))))
            elif one["kind"].endswith("List") and isinstance(one.get("items", ""), (list, type(None))):
                waiting = [*(one["items"] or ()), *waiting]
            else:
                yield Thing(with_name_label(one), place)


class Unread(Exception):
    """A file that cannot be read, or no further than to a line."""

    def __init__(self, why: str, line: int = 0):
        super().__init__(why)
        self.why, self.line = why, line


def real_path(file: str) -> str:
    """The path to which links lead; of a name that no file can have, the name."""
    try:
        return os.path.realpath(file)
    except ValueError:
        return file
