"""The requests that show the place of a session."""

import base64
import re
from typing import Any, Optional

from .arguments import Arguments, BadRequest
from .capabilities import FAULTS
from .child import Refused
from .debuggee import THREAD, Debuggee, Session
from .variables import FIRST_PLACED

# the number of the listing among sources that are no files
LISTING = 1
# the most instructions and bytes of one request
MOST_INSTRUCTIONS = 65_536
MOST_BYTES = 65_536
PLACED = re.compile(r"(?:v )?([1-9][0-9]*)$")


def number_of(text: str, key: str) -> int:
    """The number of an address: decimal, or hexadecimal after `0x`."""
    try:
        return int(text, 16 if text.startswith("0x") else 10)
    except ValueError as why:
        raise BadRequest(f"{key}: {text[:60]} is no address") from why


def listing_of(session: Session) -> dict[str, Any]:
    """The listing as a source: the file that it was written to, or a number to ask for it by."""
    order = session.launched.order
    source = {"name": f"{order.title} listing", "origin": "disassembly"}
    return {**source, "path": order.listing} if order.listing else {**source, "sourceReference": LISTING}


class Showing:
    """What is shown, by the requests that ask for it."""

    def __init__(self, debuggee: Debuggee):
        self.debuggee = debuggee
        self.handlers = {
            "threads": self.threads, "stackTrace": self.stack, "scopes": self.scopes, "variables": self.variables,
            "source": self.source, "loadedSources": self.sources, "disassemble": self.disassemble,
            "readMemory": self.memory, "evaluate": self.evaluate, "exceptionInfo": self.exception,
            "dataBreakpointInfo": self.data_info,
        }

    def threads(self, _: Arguments) -> Optional[dict[str, Any]]:
        """The one thread, by the name of the file that is launched."""
        session = self.debuggee.session
        name = session.launched.order.title if session else "nothing is launched"
        return {"threads": [{"id": THREAD, "name": name}]}

    def stack(self, given: Arguments) -> Optional[dict[str, Any]]:
        """The frames, the newest first."""
        session = self.debuggee.shown()
        slots = [session.run.place.pc, *(int(record.split()[1]) for record in session.run.records())]
        start, levels = given.number("startFrame", 0), given.number("levels", 0)
        end = start + levels if levels > 0 else len(slots)
        frames = [self.frame(session, number, slot) for number, slot in enumerate(slots)]
        return {"stackFrames": frames[max(start, 0) : end], "totalFrames": len(slots)}

    def frame(self, session: Session, number: int, slot: int) -> dict[str, Any]:
        """The frame of a number, 0 for the newest, which is at a slot."""
        found = {"id": number + 1, "name": session.parts.name_at(slot), "column": self.debuggee.first}
        line = session.code.line_of(slot)
        if line is None:
            return {**found, "name": f"slot {slot}, outside the code", "line": 0, "presentationHint": "subtle"}
        where = {"source": listing_of(session), "line": self.debuggee.line(line)}
        return {**found, **where, "instructionPointerReference": str(slot)}

    def record(self, session: Session, frame: int) -> Optional[str]:
        """The record of the call that a frame's callee left, `None` for the newest frame."""
        records = session.run.records()
        if not 1 <= frame <= len(records) + 1:
            raise BadRequest(f"frameId: there is no frame {frame}")
        return None if frame == 1 else records[frame - 2]

    def scopes(self, given: Arguments) -> Optional[dict[str, Any]]:
        """The groups of variables of a frame."""
        session = self.debuggee.shown()
        record = self.record(session, given.number("frameId"))
        return {"scopes": session.view.scopes(session.run.place, record)}

    def variables(self, given: Arguments) -> Optional[dict[str, Any]]:
        """The variables of a group or of a value."""
        self.debuggee.shown()
        number = given.number("variablesReference")
        kind, start, count = given.text("filter"), given.number("start", 0), given.number("count", 0)
        found = self.debuggee.store.children(number, kind, max(start, 0), max(count, 0))
        if found is None:
            raise BadRequest(f"variablesReference: {number} is none of this stop")
        return {"variables": found}

    def source(self, given: Arguments) -> Optional[dict[str, Any]]:
        """The text of the listing."""
        session = self.debuggee.launched()
        number = given.part("source").number("sourceReference", given.number("sourceReference", 0))
        if number != LISTING and given.part("source").text("path") != session.launched.order.listing:
            raise BadRequest(f"sourceReference: there is no source {number}")
        return {"content": session.code.text, "mimeType": "text/plain"}

    def sources(self, _: Arguments) -> Optional[dict[str, Any]]:
        """The listing, which is the only source."""
        return {"sources": [listing_of(self.debuggee.launched())]}

    def disassemble(self, given: Arguments) -> Optional[dict[str, Any]]:
        """Instructions from one on; as many as asked for, also outside the code."""
        session = self.debuggee.launched()
        slot = number_of(given.needed_text("memoryReference"), "memoryReference") + given.number("offset", 0)
        count = given.number("instructionCount")
        if not 0 <= count <= MOST_INSTRUCTIONS:
            raise BadRequest(f"instructionCount: {count} is not from 0 to {MOST_INSTRUCTIONS}")
        found = session.code.disassembled(slot, given.number("instructionOffset", 0), count)
        for one in found:
            if "line" in one:
                one["line"] = self.debuggee.line(one["line"])
        if found and "line" in found[0]:
            # the instructions after it are in the same source
            found[0]["location"] = listing_of(session)
        return {"instructions": found}

    def memory(self, given: Arguments) -> Optional[dict[str, Any]]:
        """Bytes of a region, in base64."""
        session = self.debuggee.shown()
        address = number_of(given.needed_text("memoryReference"), "memoryReference") + given.number("offset", 0)
        count = given.number("count")
        if not 0 <= count <= MOST_BYTES:
            raise BadRequest(f"count: {count} is not from 0 to {MOST_BYTES}")
        found = session.view.bytes(address, count)
        data = {"data": base64.b64encode(found).decode()} if found else {}
        missing = {"unreadableBytes": count - len(found)} if len(found) < count else {}
        return {"address": f"0x{address:016x}" if address >= 0 else str(address), **data, **missing}

    def evaluate(self, given: Arguments) -> Optional[dict[str, Any]]:
        """The value of what is typed."""
        session = self.debuggee.shown()
        text = given.needed_text("expression")
        if frame := given.number("frameId", 0):
            self.record(session, frame)
        found = session.evaluator.variable(text, session.run.place)
        kept = ("type", "variablesReference", "namedVariables", "indexedVariables", "memoryReference")
        return {"result": found["value"], **{key: found[key] for key in kept if key in found}}

    def exception(self, _: Arguments) -> Optional[dict[str, Any]]:
        """The fault that stopped the machine."""
        session = self.debuggee.shown()
        fault = session.run.place.fault
        if not fault:
            raise BadRequest("the machine is not stopped by a fault")
        return {"exceptionId": fault, "description": FAULTS.get(fault, fault), "breakMode": "always"}

    def data_info(self, given: Arguments) -> Optional[dict[str, Any]]:
        """A value that the program has placed can be watched; it is named by its reference, or by a register with it."""
        session = self.debuggee.shown()
        name = given.needed_text("name")
        words = dict(line.split() for line in session.child.many("r"))
        found = PLACED.match(name)
        reference = int(found[1]) if found else int(words.get(name, "0x0"), 16)
        try:
            if reference < FIRST_PLACED:
                raise Refused("the program has not placed it")
            session.child.one(f"v {reference}")
        except Refused as why:
            return {"dataId": None, "description": f"{name}: {why}"}
        self.debuggee.told_values.add(reference)
        return {"dataId": f"v {reference}", "description": f"the making of value {reference}", "accessTypes": ["write"]}
