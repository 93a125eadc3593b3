"""The table of indices, on which a translation runs that uses the first name of a macro with two names.

Such a translation has the params of the policy as `params.v`, and in `params.t.n` the ints 0, 1, .., as many as the
widest list or map of a review's five roots has items or entries, and at least 16.
"""

import json
import re
from pathlib import Path
from typing import Any, Iterator

# the texts of a translation, and how it names the indices of a list: no author's iteration name begins with celbpf_
TEXT = re.compile(r'"(?:\\.|[^"\\])*"')
INDICES = "params.t.n.filter(celbpf_"
# the fewest indices of a table
LEAST = 16
OF_REQUEST = ("object", "oldObject")
# what celbpf has to be given for such a translation, in words
NEEDED = (
    'params of this form: {"t": {"n": [0, 1, ..]}, "v": P}. P are the policy\'s own params, or null. There are as many ints as '
    f"the widest list or map of the review, the namespace and the params has items or entries, and at least {LEAST}"
)


def expressions(value: Any) -> Iterator[str]:
    """The texts of the parts of a policy's `spec`."""
    lists = (value.get(key) or [] for key in ("variables", "matchConditions", "validations"))
    for one in (one for some in lists for one in some):
        yield from (one[key] for key in ("expression", "messageExpression") if one.get(key))


def is_wrapped(translation: str) -> bool:
    """Whether a translation, as a gatekeeper prints it, runs on params with a table of indices."""
    return any(INDICES in TEXT.sub('""', text) for text in expressions(json.loads(translation)["spec"]))


def width(value: Any) -> int:
    """How many items or entries the widest list or map in a value has."""
    widest, waiting = 0, [value]
    while waiting:
        one = waiting.pop()
        if isinstance(one, (list, dict)):
            widest = max(widest, len(one))
            waiting += one.values() if isinstance(one, dict) else one
    return widest


def value_in(file: str) -> Any:
    """What a file of JSON says. Raises `ValueError` or `RecursionError` if a program does not read it either."""
    return json.loads(Path(file).read_bytes())


def roots_in(named: dict[str, Any]) -> list[Any]:
    """The five roots that the documents give."""
    request = value_in(named["--review"])["request"]
    rest = {key: value for key, value in request.items() if key not in OF_REQUEST}
    beside = [value_in(named[word]) for word in ("--params", "--namespace") if word in named]
    return [rest, *(request.get(key) for key in OF_REQUEST), *beside]


def params_in(named: dict[str, Any]) -> str:
    """The text of the params, which have to be an object or null; of none that of null."""
    text = Path(named["--params"]).read_text(encoding="utf-8") if "--params" in named else "null"
    if not isinstance(json.loads(text), (dict, type(None))):
        raise ValueError
    return text


def placed(documents: Any, file: Path) -> list[str]:
    """The words of documents with params that have the table, which this file gets.

    Documents that a program refuses stay as they are.
    """
    named = dict(zip(documents[::2], documents[1::2]))
    try:
        length = max(LEAST, *map(width, roots_in(named)))
        text = params_in(named)
    except (AttributeError, KeyError, TypeError, ValueError, RecursionError):
        return list(documents)
    file.write_text(f'{{"t":{{"n":{list(range(length))}}},"v":{text}}}', encoding="utf-8")
    return [word for pair in {**named, "--params": str(file)}.items() for word in pair]
