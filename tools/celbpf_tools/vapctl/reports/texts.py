"""Texts without what a terminal or XML would obey."""

from ..inputs import STDIN_NAME


def on_line(text: str) -> str:
    """A text on one line, with what is not printed as an escape."""
    return "".join(one if one.isprintable() else " " if one in "\n\t" else f"\\u{ord(one):04x}" for one in text)


def printed(text: str) -> str:
    """A text whose line feeds stay, with what else is not printed as an escape."""
    return "".join(one if one.isprintable() or one in "\n\t" else f"\\u{ord(one):04x}" for one in text)


def is_file(file: str) -> bool:
    """Whether a report can name a file."""
    return file not in ("", STDIN_NAME) and not file.startswith("(")
