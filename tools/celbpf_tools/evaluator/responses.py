"""The text that answers a review."""

from typing import Any, Optional

from .policies import REASONS
from .verdicts import DENIED, REJECTED, message_text

SHORT = {'"': '\\"', "\\": "\\\\", "\b": "\\b", "\f": "\\f", "\n": "\\n", "\r": "\\r", "\t": "\\t"}


def quoted(text: str) -> str:
    """A text in JSON, with only those characters escaped that have to be."""
    written = [
        SHORT[one] if one in SHORT else f"\\u{ord(one):04x}" if one < " " else one for one in text
    ]
    return '"' + "".join(written) + '"'


def is_shown(text: str) -> bool:
    """Whether a message expression's text is taken: it has one line, which is not blank."""
    return text.strip(" ") != "" and "\n" not in text and "\r" not in text


def message_of(validation: dict[str, Any], value: Optional[str]) -> str:
    """The message of a denial, whose message expression gave this value."""
    text = message_text(value)
    if text is not None and is_shown(text):
        return text
    return validation.get("message") or f"failed expression: {validation['expression']}"


def status(message: str, reason: str) -> str:
    return f'{{"code":{REASONS[reason]},"message":{quoted(message)},"reason":{quoted(reason)}}}'


def inner(policy: Any, verdict: Any, uid: str) -> str:
    """The part of the answer that depends on the verdict."""
    if verdict.outcome == REJECTED:
        why = status("match conditions not decided", "Invalid")
    elif verdict.outcome == DENIED:
        denied = [(policy.validations[place], value) for place, value in verdict.denials]
        messages = "; ".join(message_of(validation, value) for validation, value in denied)
        why = status(messages, denied[0][0].get("reason", "Invalid"))
    else:
        return f'{{"allowed":true,"uid":{quoted(uid)}}}'
    return f'{{"allowed":false,"status":{why},"uid":{quoted(uid)}}}'


def response(policy: Any, verdict: Any, uid: str) -> str:
    """The answer to the request of this uid, without the line feed that ends it."""
    answer = inner(policy, verdict, uid)
    return f'{{"apiVersion":"admission.k8s.io/v1","kind":"AdmissionReview","response":{answer}}}'


def is_allowed(verdict: Any) -> bool:
    return verdict.outcome not in (REJECTED, DENIED)
