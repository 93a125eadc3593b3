"""Values of cel-spec's data as JSON documents have them."""

from typing import Any

from .textproto import Message

INT = "int64_value"
# the kinds of values that the profile does not have, as reasons name them
OTHERS = {
    "uint64_value": "uint", "double_value": "double", "bytes_value": "bytes", "enum_value": "enum",
    "object_value": "message", "type_value": "type value",
}


class OutOfProfile(Exception):
    """Why a case is not in the profile; the message is the reason."""


def entry_of(entry: Message) -> tuple[str, Any]:
    """The key and the value of a map's entry."""
    kind, key = entry.one("key").only()
    if kind != "string_value":
        raise OutOfProfile("map key that is not a text")
    return key, json_of(entry.one("value"))


def json_of(value: Message) -> Any:
    """A value of the profile: null, a bool, an int, a text, or a list or map of them."""
    kind, given = value.only()
    if kind in OTHERS:
        raise OutOfProfile(f"value: {OTHERS[kind]}")
    if kind == "null_value":
        return None
    if kind == "bool_value":
        return given == "true"
    if kind == INT:
        return int(given, 0)
    if kind == "string_value":
        return given
    if kind == "list_value":
        return [json_of(one) for one in given.all("values")]
    if kind == "map_value":
        return dict(entry_of(entry) for entry in given.all("entries"))
    raise OutOfProfile(f"value: {kind or 'none'}")
