"""Compares the map of a policy with compiled beginnings of the policy."""

from typing import Any, Iterator

from ..asking.policies import parts, whole
from ..asking.program import Program
from .lines import slots_of
from .mapping import SlotMap

TRUE = [{"expression": "true"}]
# slots after the conditions, of a validation `true` with its result, and of the outcome with the exit
DECIDED, LEAST, OUTCOME = 5, 11, 8


def size_of(program: Program, policy: dict[str, Any], **changed: Any) -> int:
    """The slots of a policy with some of its parts alone."""
    spec = {key: value for key, value in policy["spec"].items() if key == "failurePolicy"}
    listing = program.run("list", program.compiled(whole({**spec, **changed}))).stdout
    return sum(map(slots_of, listing.splitlines()))


def compiled_ends(policy: dict[str, Any], program: Program) -> Iterator[tuple[Any, ...]]:
    """The kind and place of each variable, condition and validation, and the slot after its code.

    They are those of policies that end with this part.
    """
    spec = policy["spec"]
    variables, conditions = spec.get("variables", []), spec.get("matchConditions", [])
    for place in range(len(variables)):
        size = size_of(program, policy, variables=variables[: place + 1], validations=TRUE)
        yield "variable", place, size - LEAST - OUTCOME
    for place in range(len(conditions)):
        some = conditions[: place + 1]
        size = size_of(program, policy, variables=variables, matchConditions=some, validations=TRUE)
        yield "condition", place, size - LEAST - OUTCOME - DECIDED
    given = {key: spec[key] for key in ("variables", "matchConditions") if key in spec}
    for place in range(len(spec["validations"])):
        size = size_of(program, policy, **given, validations=spec["validations"][: place + 1])
        yield "validation", place, size - OUTCOME


def map_faults(policy: dict[str, Any], program: Program, slots: SlotMap) -> Iterator[str]:
    """What is wrong with a map: slots of no part or of two, and ends that compiled beginnings do not have."""
    owners = [[span for span in slots.spans if span.depth == 0 and span.holds(slot)] for slot in range(slots.size)]
    yield from (f"slot {slot} is in {len(one)} parts" for slot, one in enumerate(owners) if len(one) != 1)
    for part in parts(policy):
        if not slots.of_part(part.kind, part.place):
            yield f"{part.title} has no slots"
    for kind, place, end in compiled_ends(policy, program):
        kinds = ("validation", "message") if kind == "validation" else (kind,)
        found = max(span.last for one in kinds for span in slots.of_part(one, place)) + 1
        if found != end:
            yield f"{kind} {place} ends before slot {found}, and compiled alone before {end}"
