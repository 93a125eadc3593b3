"""The requests that set up a session: its launch, its breakpoints, and its end."""

import os
import re
from dataclasses import dataclass
from typing import Any, Callable, Optional

from .arguments import Arguments, BadRequest
from .breakpoints import FUNCTION, INSTRUCTION, LINE, Group
from .capabilities import CAPABILITIES, FAULT_FILTER
from .conditions import Condition, condition_of
from .debuggee import Debuggee, Session
from .launching import launched, ordered
from .motions import FIRST
from .showing import LISTING, listing_of, number_of
from .variables import FIRST_PLACED

DATA_ID = re.compile(r"v ([1-9][0-9]*)$")
NO_SOURCE = "only the listing has lines with code"


@dataclass(frozen=True)
class Wish:
    """A breakpoint that a client asked for: its number, and the line, the slot or the name of a part, its condition, or why it
    is not set.
    """

    number: int
    line: int = 0
    slot: int = -1
    name: str = ""
    condition: tuple[Condition, ...] = ()
    why: str = ""


def wished(given: Arguments, read: Callable[[Arguments], dict[str, Any]]) -> dict[str, Any]:
    """What a client asks for, or why one such breakpoint is not set; the others are."""
    try:
        return {**read(given), "condition": condition_of(given)}
    except BadRequest as why:
        return {"why": str(why)}


class Setting:
    """Sets up a session, by its requests."""

    def __init__(self, debuggee: Debuggee):
        self.debuggee = debuggee
        self.wishes: dict[Group, list[Wish]] = {}
        self.given = 0
        self.launch_words = Arguments({})
        # the references at whose making a run stops
        self.watched = set[int]()
        self.is_configured = False
        self.handlers = {
            "initialize": self.initialize, "launch": self.launch, "attach": self.attach,
            "configurationDone": self.configured,
            "setBreakpoints": self.lines, "setInstructionBreakpoints": self.instructions,
            "setFunctionBreakpoints": self.functions, "setExceptionBreakpoints": self.exceptions,
            "setDataBreakpoints": self.data, "breakpointLocations": self.locations,
            "restart": self.restart, "terminate": self.terminate, "disconnect": self.disconnect,
        }

    # -- the beginning

    def initialize(self, given: Arguments) -> Optional[dict[str, Any]]:
        """What the adapter can do; the client says from which number it counts lines."""
        self.debuggee.first = 1 if given.truth("linesStartAt1", True) else 0
        return CAPABILITIES

    def launch(self, given: Arguments) -> Optional[dict[str, Any]]:
        """Launches an image, or a policy that it compiles first; then breakpoints can be set."""
        if self.debuggee.session:
            raise BadRequest("launch: a session is there; restart it, or end it first")
        self.watched, self.debuggee.told_values = set(), set()
        self.begin(given)
        self.wishes, self.is_configured = {}, False
        self.debuggee.after.append(lambda: self.debuggee.connection.event("initialized"))
        return None

    def begin(self, given: Arguments) -> None:
        """Launches what the arguments ask for."""
        made = launched(ordered(given, self.debuggee.given))
        self.debuggee.session = Session(made, self.debuggee.store)
        self.debuggee.session.run.watched = self.watched
        self.launch_words = given

    def attach(self, _: Arguments) -> Optional[dict[str, Any]]:
        """Refused: each session has a process of its own."""
        raise BadRequest("attach: there is no process to attach to; launch an image or a policy")

    def configured(self, _: Arguments) -> Optional[dict[str, Any]]:
        """Begins the session once its breakpoints are set."""
        self.debuggee.launched()
        if not self.is_configured:
            self.is_configured = True
            self.debuggee.after.append(self.enter)
        return None

    def enter(self) -> None:
        """Stops at the first step, or runs on."""
        session = self.debuggee.launched()
        if session.launched.order.stops_on_entry:
            self.debuggee.stopped(FIRST)
        else:
            self.debuggee.begin(session.run.proceed())

    # -- breakpoints

    def asked(self, group: Group, wishes: list[dict[str, Any]]) -> Optional[dict[str, Any]]:
        """Replaces a group of breakpoints; what became of each."""
        session = self.debuggee.launched()
        made = []
        for wish in wishes:
            self.given += 1
            made.append(Wish(self.given, **wish))
        self.wishes[group] = made
        return {"breakpoints": self.put(session, group)}

    def put(self, session: Session, group: Group) -> list[dict[str, Any]]:
        """Sets the breakpoints of a group in a session; what became of each."""
        found = [(wish, self.slots_of(session, group, wish)) for wish in self.wishes[group]]
        stops = session.launched.order.stops_at_all
        set_ones = [(wish.number, slots) for wish, (slots, _) in found if slots and stops]
        session.breakpoints.conditions |= {wish.number: one for wish, _ in found for one in wish.condition}
        refused = session.breakpoints.replace(session.child, group, set_ones)
        answers = []
        for wish, (slots, why) in found:
            why = refused.get(wish.number, why)
            where: dict[str, Any] = self.place_of(session, slots[0]) if slots else {}
            told: dict[str, Any] = {"message": why} if why else {}
            answers.append({"id": wish.number, "verified": not why, **where, **told})
        return answers

    def slots_of(self, session: Session, group: Group, wish: Wish) -> tuple[tuple[int, ...], str]:
        """The slots of a breakpoint, or why it has none."""
        if wish.why:
            return (), wish.why
        kind, name = group
        if kind == FUNCTION:
            slots = session.parts.slots_of(wish.name)
            has_parts = "the policy has no such part" if session.parts else "an image alone has no parts by name"
            return (slots, "") if slots else ((), f"{wish.name}: {has_parts}")
        if kind == INSTRUCTION:
            return self.slots_of_instruction(session, wish)
        if name:
            return (), NO_SOURCE
        slot = session.code.slot_of(wish.line)
        return ((slot,), "") if slot is not None else ((), f"the listing has {len(session.code.lines)} lines")

    def slots_of_instruction(self, session: Session, wish: Wish) -> tuple[tuple[int, ...], str]:
        """The first slot of an instruction: a wide load has a second, at which no run stops."""
        start = session.code.start_of(wish.slot)
        outside = f"slot {wish.slot} is outside the code, which has {session.code.slots}"
        return ((start,), "") if start is not None else ((), outside)

    def place_of(self, session: Session, slot: int) -> dict[str, Any]:
        """Where a slot is shown."""
        line = session.code.line_of(slot) or 0
        return {"source": listing_of(session), "line": self.debuggee.line(line), "instructionReference": str(slot)}

    def source_name(self, session: Session, source: Arguments) -> str:
        """The name of a source, which is empty for the listing."""
        path, listing = source.text("path"), session.launched.order.listing
        if source.number("sourceReference", 0) == LISTING:
            return ""
        if path and listing and os.path.realpath(path) == os.path.realpath(listing):
            return ""
        is_named = not path and source.text("name") == listing_of(session)["name"]
        return "" if is_named else path or source.text("name") or "unknown"

    def lines(self, given: Arguments) -> Optional[dict[str, Any]]:
        """Replaces the breakpoints on lines of a source."""
        session = self.debuggee.launched()
        name = self.source_name(session, given.part("source"))
        own = self.debuggee.own_line
        return self.asked((LINE, name), [wished(one, lambda one: {"line": own(one.number("line"))}) for one in given.parts("breakpoints")])

    def instructions(self, given: Arguments) -> Optional[dict[str, Any]]:
        """Replaces the breakpoints on instructions."""
        def read(one: Arguments) -> dict[str, Any]:
            return {"slot": number_of(one.needed_text("instructionReference"), "instructionReference") + one.number("offset", 0)}

        return self.asked((INSTRUCTION, ""), [wished(one, read) for one in given.parts("breakpoints")])

    def functions(self, given: Arguments) -> Optional[dict[str, Any]]:
        """Replaces the breakpoints on parts of the policy."""
        def read(one: Arguments) -> dict[str, Any]:
            return {"name": one.needed_text("name")}

        return self.asked((FUNCTION, ""), [wished(one, read) for one in given.parts("breakpoints")])

    def exceptions(self, given: Arguments) -> Optional[dict[str, Any]]:
        """Replaces the filters: whether a session stops at a fault."""
        options = [one.needed_text("filterId") for one in given.parts("filterOptions")]
        asked = given.texts("filters") + options
        self.debuggee.filters = {one for one in asked if one == FAULT_FILTER}
        unknown = {one: {"message": f"{one}: no filter"} for one in asked if one != FAULT_FILTER}
        return {"breakpoints": [{"verified": one not in unknown, **unknown.get(one, {})} for one in asked]}

    def data(self, given: Arguments) -> Optional[dict[str, Any]]:
        """Replaces the values at whose making a run stops."""
        session = self.debuggee.launched()
        answers: list[dict[str, Any]] = []
        self.watched = set()
        for one in given.parts("breakpoints"):
            name = one.needed_text("dataId")
            why = self.why_not_watched(session, name, one)
            if not why:
                self.watched.add(int(name.split()[1]))
            answers.append({"verified": not why, **({"message": why} if why else {})})
        session.run.watched = self.watched
        return {"breakpoints": answers}

    def why_not_watched(self, session: Session, name: str, given: Arguments) -> str:
        """Why no run stops at the making of a value; empty if one does."""
        found = DATA_ID.match(name)
        if not found:
            return f"{name}: not the name of a value"
        reference = int(found[1])
        if reference < FIRST_PLACED:
            return f"{name}: the program does not make it"
        if any(given.text(key) for key in ("condition", "hitCondition")):
            return f"{name}: a breakpoint on a value has no condition"
        known = reference in self.debuggee.told_values or session.run.has_value(reference)
        return "" if known else f"{name}: there is no such value here; set it where the value is shown"

    def locations(self, given: Arguments) -> Optional[dict[str, Any]]:
        """The lines of a range on which a breakpoint can be set."""
        session = self.debuggee.launched()
        if self.source_name(session, given.part("source")):
            return {"breakpoints": []}
        first = given.number("line")
        last = given.number("endLine", first)
        least, most = max(1, self.debuggee.own_line(first)), min(len(session.code.lines), self.debuggee.own_line(last))
        found = range(least, most + 1)
        return {"breakpoints": [{"line": self.debuggee.line(line)} for line in found]}

    # -- the end

    def restart(self, given: Arguments) -> Optional[dict[str, Any]]:
        """Launches again, so that a policy that was changed is compiled anew; the breakpoints are set again."""
        self.debuggee.launched()
        more = given.part("arguments")
        self.debuggee.close()
        self.debuggee.store.clear()
        try:
            self.begin(more if more.found else self.launch_words)
        except BadRequest:
            self.debuggee.after.append(lambda: self.debuggee.connection.event("terminated"))
            raise
        self.debuggee.after.append(self.set_again)
        if self.is_configured:
            self.debuggee.after.append(self.enter)
        return None

    def set_again(self) -> None:
        """Sets all breakpoints in a new session, and tells what became of them."""
        session = self.debuggee.launched()
        for group in self.wishes:
            for one in self.put(session, group):
                self.debuggee.connection.event("breakpoint", {"reason": "changed", "breakpoint": one})

    def terminate(self, _: Arguments) -> Optional[dict[str, Any]]:
        """Ends the session; the adapter goes on."""
        self.debuggee.launched()
        self.debuggee.interrupt()
        self.debuggee.after.append(self.debuggee.terminate)
        return None

    def disconnect(self, _: Arguments) -> Optional[dict[str, Any]]:
        """Ends the session and the adapter."""
        self.debuggee.close()
        self.debuggee.is_over = True
        return None
