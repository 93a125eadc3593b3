"""Why a key of a policy's document is refused (K3), by what API servers have there.

The names and types are those of ValidatingAdmissionPolicy, `admissionregistration.k8s.io/v1`.
"""

import difflib
import re
from typing import Any, Optional

TEXT, LIST, OBJECT = "a text", "a list", "an object"
# by what a key is in, the keys that there are, each with its type
SPEC = {
    "failurePolicy": TEXT, "matchConstraints": OBJECT, "matchConditions": LIST, "variables": LIST, "validations": LIST,
    "paramKind": OBJECT, "auditAnnotations": LIST,
}
ITEMS = {
    "variables": {"name": TEXT, "expression": TEXT},
    "matchConditions": {"name": TEXT, "expression": TEXT},
    "validations": {"expression": TEXT, "message": TEXT, "messageExpression": TEXT, "reason": TEXT},
}
DOCUMENT = {"apiVersion": TEXT, "kind": TEXT, "metadata": OBJECT, "spec": OBJECT, "status": OBJECT}
VALUES = {
    "failurePolicy": ("Fail", "Ignore"),
    "reason": ("Unauthorized", "Forbidden", "Invalid", "RequestEntityTooLarge"),
}
NAMES = {
    "variables": "no name of CEL: a letter or `_`, then letters, digits and `_`",
    "matchConditions": "no name: letters, digits, `-`, `_` and `.`, with a letter or digit at both ends",
}
ITEM = re.compile(r"spec\.(\w+)\[(\d+)\](?:\.(.+))?$")


def type_of(value: Any) -> str:
    """What a value is, in words."""
    words = {bool: "a bool", int: "a number", float: "a number", str: TEXT, list: LIST, dict: OBJECT, type(None): "null"}
    return words.get(type(value), "another value")


def shown(value: Any) -> str:
    """A value in a message: a short text or number as it is, else its type."""
    if isinstance(value, (str, bool, int, float)) and len(str(value)) <= 40:
        return f"`{str(value).lower() if isinstance(value, bool) else value}`"
    return type_of(value)


def known_of(key: str) -> tuple[str, str, Optional[dict[str, str]]]:
    """The last key of a path, what it is in, and the keys that there are."""
    item = ITEM.match(key)
    if item and item[3]:
        return item[3], item[1], ITEMS.get(item[1])
    if key.startswith("spec.") and "[" not in key:
        return key.removeprefix("spec."), "spec", SPEC
    return key, "the document", DOCUMENT if "." not in key and "[" not in key else None


def cause(key: str, value: Any) -> str:
    """Why a key with this value is refused; empty if that is not known."""
    name, within, known = known_of(key)
    if known is None:
        return ""
    if name not in known:
        near = difflib.get_close_matches(name, list(known), 1)
        meant = f"; there is `{near[0]}`" if near else f"; there are {', '.join(known)}"
        return f"no such key{meant}"
    if type_of(value) != known[name]:
        return f"it is {type_of(value)}, and not {known[name]}"
    if name in VALUES:
        return f"it is {shown(value)}; there are {', '.join(VALUES[name])}" if value not in VALUES[name] else ""
    if name == "name" and within in NAMES:
        return f"{shown(value)} is {NAMES[within]}"
    return ""
