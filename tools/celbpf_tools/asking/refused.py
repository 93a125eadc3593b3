"""Where a policy is refused, and what its refusal means."""

from dataclasses import dataclass
from typing import Any, Optional

from . import operands, policies
from .keys import TRUE, Keys
from .places import Refusals, cause_of, of_function, smallest
from .program import Program

MEANINGS = {
    "K1": "the document is no JSON text",
    "K2": "it is no object, or its apiVersion or kind is another or absent",
    "K3": "a key is unknown, missing or of another type, or a name, failure policy or reason is none that there is",
    "K4": "there is no validation",
    "K5": "there are more than 64 conditions, variables or validations",
    "K7": "a condition or validation is known to be no bool",
    "K8": "a message has a line feed or a carriage return",
    "K9": "a message expression is known to be no text",
    "P1": "a character begins no token",
    "P2": "a text literal does not end, or has a wrong escape",
    "P3": "an int does not fit 64 bits",
    "P4": "a token does not fit here, or the text ends too early",
    "P5": "more than 100 brackets and conditionals are open",
    "P6": "the text is longer than 65,536 bytes or 4,096 tokens",
    "M1": "a macro has another number of arguments",
    "M2": "a macro iterates by what is no free name",
    "M3": "has() is asked of what is no field",
    "Y1": "a name is unknown",
    "Y2": "no function or operator takes operands of these types",
    "Y3": "variables is not followed by the name of a variable in scope",
    "W1": "it has a literal of bytes",
    "W2": "it has a number with a fraction, or an unsigned int where there can be none",
    "W3": "a macro makes a map of computed keys",
    "W4": "an optional value stands where there can be none",
    "W5": "it has a name or a form that is not supported",
    "W6": "a map has more than three entries with a question mark, or one whose key is computed",
    "W10": "it is nested more than 512 deep",
    "G1": "it needs more than 60 words of the stack",
    "G2": "a variable is nested more than six variables deep",
    "G3": "the parts up to here have more than 512 nodes together",
    "G4": "the names and texts up to here are more than 1,048,576 bytes together",
}


@dataclass
class Refused:
    """Where a policy is refused: what is meant, and the piece of a part, or the key with what it has."""

    meaning: str
    part: Optional[policies.Part] = None
    begin: int = 0
    end: int = 0
    key: str = ""
    value: Any = None


def of_part(program: Program, policy: dict[str, Any], refusal: str) -> Refused:
    """The part that K6 names, with the place of P or the smallest piece."""
    _, kind, place, cause, *at = refusal.split()
    part = next(one for one in policies.parts(policy) if one.kind == kind and one.place == int(place))
    if at:
        begin = len(part.text.encode()[: int(at[1])].decode(errors="ignore"))
        return Refused(MEANINGS[cause], part, begin, begin + 1)
    refusals = Refusals(program, part, cause)
    piece, frames = smallest(refusals)
    meaning = cause == "Y2" and (of_function(program, piece) or operands.told(refusals, part.text, piece, frames))
    return Refused(meaning or MEANINGS[cause], part, piece.begin, piece.end)


def whole_part(number: str, part: policies.Part) -> Refused:
    """All of a part."""
    return Refused(MEANINGS[number], part, 0, len(part.text))


def of_type(program: Program, policy: dict[str, Any], number: str) -> Refused:
    """The first part that is refused alone for its type."""
    for part in policies.parts(policy):
        if cause_of(program.refusal(made_for(part))) == number:
            return whole_part(number, part)
    return Refused(MEANINGS[number])


def made_for(part: Any) -> dict[str, Any]:
    """A policy whose only condition, validation or message is this part."""
    spec: dict[str, Any] = {"variables": policies.needed(part.scope, part.text), "validations": [TRUE]}
    if part.kind == "condition":
        spec["matchConditions"] = [{"name": part.name, "expression": part.text}]
    elif part.kind == "message":
        spec["validations"] = [{**TRUE, "messageExpression": part.text}]
    elif part.kind == "validation":
        spec["validations"] = [{"expression": part.text}]
    return policies.whole(spec)


def of_size(program: Program, policy: dict[str, Any], number: str) -> Refused:
    """The first part with which the policy up to it is too large."""
    spec: dict[str, Any] = {"variables": [], "matchConditions": [], "validations": []}
    for part in policies.parts(policy):
        add(spec, part)
        whole = policies.whole({**spec, "validations": spec["validations"] or [TRUE]})
        if cause_of(program.refusal(whole)) == number:
            return whole_part(number, part)
    return Refused(MEANINGS[number])


def add(spec: dict[str, Any], part: Any) -> None:
    """Adds a part to a specification that has those before it."""
    if part.kind == "message":
        spec["validations"][-1]["messageExpression"] = part.text
    elif part.kind == "validation":
        spec["validations"].append({"expression": part.text})
    else:
        key = "variables" if part.kind == "variable" else "matchConditions"
        spec[key].append({"name": part.name, "expression": part.text})


def of_key(program: Program, policy: dict[str, Any], number: str) -> Refused:
    """The key of the document that is refused alone."""
    found = Keys(program, number).of_policy(policy)
    if not found:
        return Refused(MEANINGS[number])
    return Refused(MEANINGS[number], key=found[0], value=found[1])


FINDERS = {"K3": of_key, "K5": of_key, "K8": of_key, "K7": of_type, "K9": of_type, "G3": of_size, "G4": of_size}


def refused(program: Program, policy: Any, refusal: str) -> Refused:
    """Where a policy of JSON is refused."""
    number = cause_of(refusal)
    if refusal.startswith("K6 "):
        return of_part(program, policy, refusal)
    if number in FINDERS:
        return FINDERS[number](program, policy, number)
    return Refused(MEANINGS.get(number, "the policy cannot be read or its image not be written"))
