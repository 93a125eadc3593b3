"""Documents as people write them: JSON, and YAML if Python's `yaml` is installed."""

import importlib
import json
import re
import sys
from pathlib import Path
from typing import Any, Iterator, Optional, Union

from . import yaml_words
from .aliases import DEEPEST, refuse_large
from .entry import Stop
from .vapctl.numbers import NotJson, sent
from .yaml_loader import MERGE, loader_of

try:
    yaml: Any = importlib.import_module("yaml")
except ImportError:
    yaml = None

STDIN = "-"
YAML_NAMES = (".yaml", ".yml")
# only texts with so many brackets, or a line that begins with so many indentations, may have more than DEEPEST lists and
# maps inside one another
MAYBE_DEEP = re.compile(r"(?:[\[{][^\[{]*){300}|^[ \-?:]{300}", re.MULTILINE)


def yaml_package() -> Any:
    """Python's package for YAML, or `None` if there is none."""
    return yaml


class Unreadable(Stop):
    """A document that cannot be read: the message has the file, and the line and the column if they are known."""


def place_of(text: str, at: int) -> str:
    """The line and the column of a place in a text, counted from 1."""
    return f"line {text.count(chr(10), 0, at) + 1} column {at - text.rfind(chr(10), 0, at)}"


def text_of(path: Union[str, Path]) -> str:
    """The text of a file, or of standard input if it is `-`."""
    try:
        read = sys.stdin.buffer.read() if str(path) == STDIN else Path(path).read_bytes()
        return read.decode("utf-8-sig").replace("\r\n", "\n").replace("\r", "\n")
    except OSError as why:
        raise Unreadable(f"{path}: {why.strerror}") from why
    except UnicodeDecodeError as why:
        raise Unreadable(f"{path}: byte {why.start} is not UTF-8") from why


def json_fault(text: str) -> Optional[str]:
    """Why a text is not JSON, with the line and the column; `None` if it is."""
    try:
        json.loads(text)
    except json.JSONDecodeError as why:
        return f"{why.msg[:1].lower()}{why.msg[1:].removesuffix(' at')} at {place_of(text, why.pos)}"
    except RecursionError:
        return "it is nested too deep"
    except ValueError:
        # Python converts no text of more digits
        return "a number has more than 4,300 digits"
    return None


def loader(base: Any = None) -> Any:
    """A loader of YAML that reads it as `kubectl` does; `base` is a safe loader of the package."""
    return loader_of(yaml, base or yaml.SafeLoader)


def too_deep(text: str) -> Any:
    """Where a text in YAML has too many lists and maps inside one another, as a mark; `None` if it has not."""
    depth = 0
    for event in yaml.parse(text, loader(getattr(yaml, "CSafeLoader", None))) if MAYBE_DEEP.search(text) else ():
        depth += isinstance(event, yaml.CollectionStartEvent) - isinstance(event, yaml.CollectionEndEvent)
        if depth > DEEPEST:
            return event.start_mark
    return None


def refuse_repeated(root: Any) -> None:
    """Refuses a document in which a map has a key twice: which of them counts depends on who reads it."""
    waiting, seen = [root], {id(root)}
    while waiting:
        node = waiting.pop()
        parts = node.value if isinstance(node, yaml.SequenceNode) else []
        if isinstance(node, yaml.MappingNode):
            parts = [part for pair in node.value for part in pair]
            lines: dict[str, Any] = {}
            for key in (name for name, _ in node.value if isinstance(name, yaml.ScalarNode) and name.tag != MERGE):
                if key.value in lines:
                    told = f"the key {key.value!r} of line {lines[key.value]} is repeated"
                    raise yaml.constructor.ConstructorError(None, None, told, key.start_mark)
                lines[key.value] = key.start_mark.line + 1
        for part in parts:
            # an alias has the node that it repeats
            if isinstance(part, yaml.CollectionNode) and id(part) not in seen:
                seen.add(id(part))
                waiting.append(part)


def yaml_values(text: str, load: Any) -> Iterator[Any]:
    """The node and the value of each document of a text in YAML, with a loader of this class."""
    loading = load(text)
    try:
        while loading.check_node():
            node = loading.get_node()
            refuse_repeated(node)
            yield node, loading.construct_document(node)
    finally:
        loading.dispose()


def yaml_of(text: str, path: Union[str, Path]) -> list[Any]:
    """The documents of a text in YAML, without empty ones."""
    if yaml is None:
        raise Unreadable(f"{path}: reading YAML needs PyYAML (Debian's python3-yaml); JSON is read without it")
    try:
        if deep := too_deep(text):
            raise Unreadable(f"{path}: it is nested too deep at line {deep.line + 1} column {deep.column + 1}")
        found = [value for _, value in yaml_values(text, loader()) if value is not None]
        for value in found:
            refuse_large(value)
            # what JSON does not have is refused here; numbers and keys stay as they are
            sent(value)
        return found
    except yaml.YAMLError as why:
        mark = getattr(why, "problem_mark", None)
        words = yaml_words.told(text, why)
        fault = yaml_words.placed(words, f"line {mark.line + 1} column {mark.column + 1}") if mark else words
        raise Unreadable(f"{path}: {fault}") from why
    except (ValueError, TypeError, OverflowError, NotJson) as why:
        raise Unreadable(f"{path}: {str(why).splitlines()[0]}") from why
    except RecursionError as why:
        raise Unreadable(f"{path}: it is nested too deep") from why


def all_in(path: Union[str, Path]) -> list[Any]:
    """The documents of a file, which is YAML if its name or its text says so."""
    text = text_of(path)
    is_named = Path(path).suffix in YAML_NAMES
    fault = json_fault(text)
    if fault is None:
        return [json.loads(text)]
    if is_named or not text.lstrip().startswith(("{", "[")):
        # a text that is neither is told as JSON where there is no YAML
        if yaml is None and not is_named:
            raise Unreadable(f"{path}: {fault}; if it is YAML, it needs PyYAML (Debian's python3-yaml)")
        return yaml_of(text, path)
    raise Unreadable(f"{path}: {fault}")


def policy_in(path: Path) -> Any:
    """The policy of a file, which may have bindings too; or else its one document."""
    found = all_in(path)
    policies = [one for one in found if kind_of(one) == "ValidatingAdmissionPolicy"]
    bindings = [one for one in found if kind_of(one) == "ValidatingAdmissionPolicyBinding"]
    if len(policies) == 1 and len(bindings) == len(found) - 1:
        return policies[0]
    return only(found, path)


def kind_of(document: Any) -> Any:
    return document.get("kind") if isinstance(document, dict) else None


def one_in(path: Path) -> Any:
    """The one document of a file."""
    return only(all_in(path), path)


def only(found: list[Any], path: Path) -> Any:
    """The one document that was found in a file."""
    if len(found) != 1:
        raise Unreadable(f"{path}: {len(found)} documents, and one is expected" if found else f"{path}: no document is in it")
    return found[0]
