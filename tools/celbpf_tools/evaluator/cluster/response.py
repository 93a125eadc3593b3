"""The answer to a review by the events of its dispatch."""

from typing import Any

from .. import documents
from ..policies import REASONS
from ..refused import Refused
from ..responses import quoted
from ..reviews import API_VERSION, KIND, has_form
from . import attributes
from .attributes import Attributes
from .dispatch import Dispatch
from .events import Denial, Events, Failure
from .fields import field
from .quotes import go_json, go_quoted
from .state import State

ANNOTATION = "validation.policy.admission.k8s.io/validation_failure"


def name_shown(given: Attributes) -> str:
    """The name that a denial shows."""
    if given.name:
        return given.name
    if given.new is None:
        return "Unknown"
    metadata = field(given.new, "metadata")
    if metadata is None:
        return "Unknown/errorGettingName"
    names = [field(metadata, key) for key in ("name", "generateName")]
    return next((name for name in names if isinstance(name, str) and name), "Unknown")


def denied_message(given: Attributes, denial: Denial) -> str:
    group, _, resource = given.resource
    shown = f"{resource}.{group}" if group else resource
    binding = f" with binding '{denial.binding}'" if denial.binding else ""
    return (
        f"{shown} {go_quoted(name_shown(given))} is forbidden: "
        f"ValidatingAdmissionPolicy '{denial.policy}'{binding} denied request: {denial.message}"
    )


def annotation(failure: Failure) -> str:
    """The value of the audit annotation."""
    actions = ",".join(map(quoted, failure.actions))
    return (
        f'[{{"message":{go_json(failure.message)},"policy":{go_json(failure.policy)},"binding":{go_json(failure.binding)},'
        f'"expressionIndex":{failure.place},"validationActions":[{actions}]}}]'
    )


def status(message: str, reason: str, code: int) -> str:
    return f'"status":{{"code":{code},"message":{quoted(message)},"reason":{quoted(reason)}}}'


def by_events(given: Attributes, events: Events, uid: str) -> str:
    """The response's text; a refusal if nothing else is decided."""
    denied = events.not_found is not None or bool(events.denials)
    if events.refusal and not denied:
        told = events.refusal
        return f'{{"policy":{quoted(told.policy)},"refused":{quoted(told.text)},"uid":{quoted(uid)}}}'
    parts = [f'"allowed":{"false" if denied else "true"}']
    if events.failures:
        parts.append(f'"auditAnnotations":{{{quoted(ANNOTATION)}:{quoted(annotation(events.failures[0]))}}}')
    if events.not_found is not None:
        parts.append(status(events.not_found, "NotFound", 404))
    elif denied:
        first = events.denials[0]
        parts.append(status(denied_message(given, first), first.reason, REASONS[first.reason]))
    parts.append(f'"uid":{quoted(uid)}')
    if events.warnings:
        parts.append(f'"warnings":[{",".join(map(quoted, dict.fromkeys(events.warnings)))}]')
    return f'{{"apiVersion":"{API_VERSION}","kind":"{KIND}","response":{{{",".join(parts)}}}}}'


def uid_of(document: Any) -> str:
    """The end of a refusal's line, with the uid if the document shows one."""
    uid = field(document, "request", "uid")
    return f',"uid":{quoted(uid)}' if isinstance(uid, str) else ""


def answer(state: State, review: bytes) -> str:
    """The line that answers a review under a state."""
    document: Any = None
    try:
        document = documents.read(review, "N2")
        if not has_form(document):
            raise Refused("N2")
        request = document["request"]
        given = attributes.of(request)
    except Refused as why:
        return f'{{"refused":"{why.text}"{uid_of(document)}}}'
    return by_events(given, Dispatch(state, given, request).run(), request["uid"])
