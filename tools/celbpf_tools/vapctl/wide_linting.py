"""All refusals of a policy in the language of clusters, as the gatekeeper answers."""

import json
from collections.abc import Iterator
from typing import Any, Optional

from ..asking import hidden, policies
from ..asking.gatekeeper import Gatekeeper
from ..asking.refused import Refused, refused
from ..asking.wide_functions import MACROS, meant
from ..asking.wide_places import Found, Places
from ..asking.wide_words import told
from .inputs import Thing
from .linting import Fault, path_of, position_of, without, without_key
from .one_decision import policy_text
from .positions import Marks, Path
from .refusals import NO_ANNOTATIONS

# of the whole policy, so that no other part is to blame
OF_SIZE = ("G3", "G4")
ANNOTATIONS = "auditAnnotations"
# what to write for a part of another type
HINTS = {"K7": "a comparison, such as `e == 'a'`", "K9": "`string(e)` of an int or a bool"}
STAND_IN = "dyn(null)"
# a macro has more parts: the range, a name and a predicate
MACRO_PARTS = 2


class WideFault(Fault):
    """A refusal in the language of clusters."""

    @property
    def meaning(self) -> str:
        if self.refused.part:
            return self.refused.meaning
        if ANNOTATIONS in self.refused.key:
            return NO_ANNOTATIONS
        return super().meaning


def wide_faults(gatekeeper: Gatekeeper, thing: Thing, marks: Optional[Marks]) -> Iterator[Fault]:
    """The refusals of a policy, in the order in which it is compiled. One of the whole document but K3 of a key ends them."""
    policy: Any = json.loads(policy_text(thing))
    seen = set[Path]()
    while refusal := hidden.of_policy(gatekeeper, policy):
        part = policies.part_of(policy, refusal)
        if part is None:
            found = refused(gatekeeper, policy, refusal)
            part = found.part
            yield WideFault(thing, refusal, found, position_of(thing, found, marks), HINTS.get(refusal.split()[0], ""))
            changed = without_key(policy, refusal, found)
            if changed is not None:
                policy = changed
                continue
        else:
            places = Places(gatekeeper, part)
            yield from faults_of_part(places, thing, marks, refusal)
        if part is None or path_of(part) in seen or refusal.split()[0] in OF_SIZE:
            return
        seen.add(path_of(part))
        policy = without(policy, part)
        if part.kind == "variable":
            # of the kind that it would have, for the parts after it
            policy["spec"]["variables"][part.place]["expression"] = places.text


def faults_of_part(places: Places, thing: Thing, marks: Optional[Marks], refusal: str) -> Iterator[Fault]:
    """The refusals in a part, or that of the part as a whole."""
    part = places.part
    all_found = list(undeclared(places.found())) or [Found(refusal.split()[3], 0, len(part.text))]
    # what stands for a piece that is refused itself says nothing of the operands around it
    own_words = [found for found in all_found if STAND_IN in part.text or STAND_IN not in told(found, part.text)[0]]
    all_found = own_words or all_found
    for found in all_found:
        meaning, hint = told(found, part.text)
        piece = Refused(meaning, part, found.begin, found.end)
        own = " ".join(filter(None, ["K6", part.kind, str(part.place), found.cause, found.name]))
        yield WideFault(thing, refusal if found is all_found[0] else own, piece, position_of(thing, piece, marks), hint)


def undeclared(all_found: Iterator[Found]) -> Iterator[Found]:
    """What is refused, without the names that calls around them would declare, if these were the macros that are meant."""
    names = set[str]()
    for found in all_found:
        calls = [one for one in found.around if one.form == "method" and meant(one.name) in MACROS and len(one.parts) > MACRO_PARTS]
        names |= {one.parts[1].word for one in calls if one.parts[1].word == found.name}
        if not calls or found.name not in names:
            yield found
