"""Documents of YAML, with the line of each document and of each item of a list."""

from typing import Any, Iterator, Optional

from .. import documents, yaml_words
from ..aliases import refuse_large
from .located import Document, Located

NAMES = documents.YAML_NAMES


class NotRead(Exception):
    """A text that is no YAML, or one that is not read: why, and the line and the column if they are known."""

    def __init__(self, why: str, line: int = 0, column: int = 0):
        super().__init__(why)
        self.why, self.line, self.column = why, line, column


def has_yaml() -> bool:
    """Whether Python has a package for YAML."""
    return documents.yaml_package() is not None


def loader() -> Any:
    """A class that loads YAML, the faster one if the package has it."""
    return documents.loader(getattr(documents.yaml_package(), "CSafeLoader", None))


def documents_of(text: str) -> Iterator[Document]:
    """The documents of a text of YAML, without empty ones."""
    yaml = documents.yaml_package()
    try:
        refuse_deep(text)
        for node, value in documents.yaml_values(text, loader()):
            if value is not None:
                yield document_of(node, value, "*" in text)
    except yaml.YAMLError as why:
        mark = getattr(why, "problem_mark", None)
        raise NotRead(yaml_words.told(text, why), mark.line + 1 if mark else 0, mark.column + 1 if mark else 0) from why
    except RecursionError as why:
        raise NotRead("it is nested too deep") from why
    except (ValueError, TypeError, OverflowError) as why:
        raise NotRead(str(why).split("\n", maxsplit=1)[0]) from why


def document_of(node: Any, value: Any, has_aliases: bool) -> Document:
    """The document of a node with this value."""
    if has_aliases:
        refuse_large(value)
    return Document(value, node.start_mark.line + 1, items_of(node, value), True)


def items_of(node: Any, value: Any) -> Optional[list[Located]]:
    """The items of a map's list `items`, with their lines."""
    items = value.get("items") if isinstance(value, dict) else None
    if not isinstance(items, list):
        return None
    lines = [node.start_mark.line + 1] * len(items)
    for key, inner in node.value:
        # the last one counts, and one that a merge brings has the document's line
        if key.value == "items" and isinstance(inner.value, list) and len(inner.value) == len(items):
            lines = [item.start_mark.line + 1 for item in inner.value]
    return [Located(item, line) for item, line in zip(items, lines)]


def refuse_deep(text: str) -> None:
    """Refuses a text that is nested too deep, without nesting calls."""
    if mark := documents.too_deep(text):
        raise NotRead("it is nested too deep", mark.line + 1, mark.column + 1)
