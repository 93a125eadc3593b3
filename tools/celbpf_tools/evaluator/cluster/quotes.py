"""Texts as Go writes them."""

from ..responses import quoted

ESCAPED = {"<": "\\u003c", ">": "\\u003e", "&": "\\u0026", "\u2028": "\\u2028", "\u2029": "\\u2029"}


def go_quoted(text: str) -> str:
    """A printable text in Go's quotes (`%q`)."""
    return '"' + text.replace("\\", "\\\\").replace('"', '\\"') + '"'


def go_json(text: str) -> str:
    """A text in JSON, as `encoding/json` escapes it for HTML."""
    return "".join(ESCAPED.get(one, one) for one in quoted(text))
