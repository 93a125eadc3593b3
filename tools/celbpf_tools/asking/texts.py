"""How texts are shown."""

# the most characters of a value on a line
MOST = 300
# half of the most characters of a line that carets stand under
WIDTH = 60


def escaped(text: str) -> str:
    """A text without characters that a terminal would obey; line feeds stay."""
    return "".join(one if one.isprintable() or one == "\n" else f"\\u{ord(one):04x}" for one in text)


def on_one_line(text: str) -> str:
    """A text on one line, and not too long a one."""
    shown = escaped(text).replace("\n", " ")
    return shown if len(shown) <= MOST else f"{shown[:MOST]}.. ({len(shown)} characters)"


def indented(text: str) -> str:
    """The lines of a text, each further in."""
    return "\n".join(f"    {line}" for line in escaped(text).strip("\n").split("\n"))


def pointed(text: str, begin: int, end: int) -> str:
    """The line of a text in which a piece begins, and carets under the piece; of a long line a part of it."""
    first = text.rfind("\n", 0, begin) + 1
    last = text.find("\n", begin)
    last = len(text) if last < 0 else last
    left = "" if begin - first <= WIDTH else ".. "
    first = first if not left else begin - WIDTH // 2
    right = "" if last - first <= 2 * WIDTH else " .."
    last = last if not right else first + 2 * WIDTH
    before, under = left + escaped(text[first:begin]), escaped(text[begin : min(end, last)])
    return f"    {left}{escaped(text[first:last])}{right}\n    {' ' * len(before)}{'^' * max(1, len(under))}"
