"""What a place of the run shows, as the protocol's variables."""

import functools
import json
import re
from dataclasses import dataclass
from typing import Any, Callable, Optional

from ..slots.mapping import Span
from .child import Child, Place, Refused
from .code import Code
from .parts import Parts, on_one_line

ROOTS = {4: "object", 5: "oldObject", 6: "params", 7: "namespaceObject", 8: "request"}
# the references of the values that every run begins with
FIRST_PLACED = 9
OUTCOMES = {"0": "none yet", "1": "skipped", "2": "rejected", "3": "denied", "4": "admitted"}
TRUTHS = {"1": "false", "2": "error"}
# the most characters of a value's text beside its name, and the most placed values at once if a client asks for all
SHOWN = 1000
NEWEST = 100
REGIONS = {"stack": (0x1_0000_0000, 4096), "scratch": (0x2_0000_0000, 4096), "verdict": (0x3_0000_0000, 2048)}
CONSTANTS = 0x4_0000_0000
FRAME = 512
TYPES = {dict: "map", list: "list", str: "text", bool: "bool", int: "int", type(None): "null"}
KEY = re.compile(r"[A-Za-z_][A-Za-z0-9_]*$")


def regions_of(code: Code) -> dict[str, tuple[int, int]]:
    """The first address and the bytes of each region."""
    constants = {"constants": (CONSTANTS, code.constants)} if code.constants else {}
    return {**REGIONS, **constants}


def region_at(code: Code, address: int) -> Optional[tuple[int, int]]:
    """The region that an address is in."""
    return next((one for one in regions_of(code).values() if one[0] <= address < one[0] + one[1]), None)


def has_value(child: Child, reference: int) -> bool:
    """Whether there is a value with this reference at the place that is shown."""
    return child.ask(f"v {reference}")[0] != "? range"


def count_of_values(child: Child) -> int:
    """How many values there are, those of the start among them."""
    low, high = FIRST_PLACED, FIRST_PLACED + 1
    while has_value(child, high - 1):
        low, high = high, high * 2
    while low < high - 1:
        middle = (low + high) // 2
        low, high = (middle, high) if has_value(child, middle - 1) else (low, middle)
    return low


def word(number: int) -> str:
    """A word as the debugger writes it."""
    return f"0x{number:016x}"


@dataclass(frozen=True)
class Node:
    """Variables that a client can open: `fetch` gives those from one place to another of the `count`."""

    count: int
    fetch: Callable[[int, int], list[Any]]
    is_indexed: bool = False
    # how many are given at most if a client asks for all, from the last on
    most: Optional[int] = None


class Store:
    """The nodes of one stop. Numbers are not used again, so those of an earlier stop name nothing."""

    def __init__(self) -> None:
        self.nodes: dict[int, Node] = {}
        self.given = 0

    def clear(self) -> None:
        """Forgets all nodes, since the place has changed."""
        self.nodes = {}

    def put(self, node: Node) -> int:
        """The number of a node."""
        self.given += 1
        self.nodes[self.given] = node
        return self.given

    def children(self, number: int, kind: Optional[str], start: int, count: int) -> Optional[list[Any]]:
        """The variables of a node, or `None` if there is no such node; `count` 0 asks for all."""
        node = self.nodes.get(number)
        if node is None:
            return None
        if kind and (kind == "indexed") != node.is_indexed:
            return []
        if count:
            return node.fetch(start, min(start + count, node.count))
        return node.fetch(max(0, node.count - node.most) if node.most else 0, node.count)


class View:
    """Shows the place of a session."""

    def __init__(self, child: Child, code: Code, store: Store, parts: Parts):
        self.child = child
        self.code = code
        self.store = store
        self.parts = parts

    # -- variables of one kind each

    def plain(self, name: str, value: str, kind: str = "", **more: Any) -> dict[str, Any]:
        """A variable without parts."""
        return {"name": name, "value": value, **({"type": kind} if kind else {}), "variablesReference": 0, **more}

    def opened(self, name: str, value: str, node: Node, **more: Any) -> dict[str, Any]:
        """A variable with parts."""
        counted = {"indexedVariables" if node.is_indexed else "namedVariables": node.count}
        return {"name": name, "value": value, "variablesReference": self.store.put(node), **counted, **more}

    def of_json(self, name: str, value: Any, path: str = "") -> dict[str, Any]:
        """A variable of a value; `path` is the expression that has it."""
        text = json.dumps(value, separators=(",", ":"), ensure_ascii=False)
        text = text if len(text) <= SHOWN else f"{text[:SHOWN]}.."
        more = {"evaluateName": path} if path else {}
        if isinstance(value, dict) and value:
            items = list(value.items())
            return self.opened(name, text, Node(len(items), lambda low, high: [
                self.of_json(key, one, field_of(path, key)) for key, one in items[low:high]
            ]), type="map", **more)
        if isinstance(value, list) and value:
            return self.opened(name, text, Node(len(value), lambda low, high: [
                self.of_json(f"[{at}]", value[at], f"{path}[{at}]" if path else "") for at in range(low, high)
            ], True), type="list", **more)
        return self.plain(name, text, TYPES.get(type(value), ""), **more)

    def value(self, name: str, reference: int, path: str = "") -> dict[str, Any]:
        """A variable of the value at a reference."""
        try:
            text = self.child.one(f"v {reference}").split(" ", 2)[2]
        except Refused as why:
            return self.plain(name, f"not shown: {why}")
        if text == "error":
            return self.plain(name, text, "error")
        try:
            return self.of_json(name, json.loads(text), path or f"v {reference}")
        except (ValueError, RecursionError):
            return self.plain(name, f"{text[:SHOWN]}..")

    def word_of(self, name: str, text: str) -> dict[str, Any]:
        """A variable of a word; one that is an address can be read from."""
        more = {"memoryReference": text} if region_at(self.code, int(text, 16)) else {}
        return self.plain(name, text, "word", evaluateName=name, **more)

    # -- scopes

    def registers(self, place: Place) -> list[dict[str, Any]]:
        """The registers, and where the machine is."""
        found = [self.word_of(*line.split()) for line in self.child.many("r")]
        where = [("pc", str(place.pc)), ("step", str(place.step)), ("status", place.status)]
        return [*found, *(self.plain(name, value, evaluateName=name) for name, value in where)]

    def saved(self, record: str) -> list[dict[str, Any]]:
        """The registers that an open call saved."""
        words = record.split()[2:]
        return [self.word_of(name, text) for name, text in zip(words[::2], words[1::2])]

    def frames(self) -> list[dict[str, Any]]:
        """The open local calls, the newest first."""
        depth, *records = self.child.many("f")
        found = [self.plain("depth", depth.split()[1], "int")]
        for number, record in enumerate(records):
            node = Node(4, functools.partial(self.part_of_saved, record))
            found.append(self.opened(f"call {number}", record, node))
        return found

    def values(self) -> list[dict[str, Any]]:
        """The values of the review, and those that the program has placed."""
        count = count_of_values(self.child) - FIRST_PLACED
        node = Node(count, lambda low, high: [
            self.value(str(at), at) for at in range(FIRST_PLACED + low, FIRST_PLACED + high)
        ], True, NEWEST)
        roots = [self.value(name, reference, name) for reference, name in ROOTS.items()]
        return [*roots, self.opened("placed", f"{count} values", node) if count else self.plain("placed", "0 values")]

    def verdict(self) -> list[dict[str, Any]]:
        """The words of the verdict; only a compiled policy gives them this meaning."""
        first, *rest = self.child.many("w")
        _, outcome, denials = first.split()
        said = OUTCOMES.get(outcome)
        found = [self.plain("outcome", f"{outcome} {said}" if said else outcome), self.plain("denials", denials, "int")]
        for line in rest:
            kind, place, number = line.split()
            if kind == "message":
                found.append(self.value(f"message {place}", int(number)))
            else:
                found.append(self.plain(f"validation {place}", f"{number} {TRUTHS.get(number, '')}".strip()))
        return found

    def evaluated(self, place: Place) -> list[dict[str, Any]]:
        """The sub-expressions that the step before has evaluated, with their values."""
        spans = self.parts.valued(place.pc) if place.step else []
        if not spans:
            return []
        before = self.child.move("rs 1").pc
        self.child.move("s 1")
        words = dict(line.split() for line in self.child.many("r"))
        return [
            self.value(on_one_line(self.shown(span)), int(words[span.register], 16))
            for span in spans if span.holds(before) and span.register in words
        ]

    def shown(self, span: Span) -> str:
        """The text of a sub-expression; of a whole part, as its author wrote it."""
        is_whole = span.part is not None and (span.begin, span.end) == (0, len(span.part.text))
        return self.parts.text_of(span) if is_whole else span.text

    def memory(self) -> list[dict[str, Any]]:
        """The regions, each to be read from its first address on."""
        found = []
        for name, (first, count) in regions_of(self.code).items():
            found.append(self.plain(name, f"{count} bytes from {word(first)}", "region", memoryReference=word(first)))
        return found

    def part_of_saved(self, record: str, low: int, high: int) -> list[Any]:
        """Some of the saved words of a call."""
        return self.saved(record)[low:high]

    def scopes(self, place: Place, record: Optional[str]) -> list[dict[str, Any]]:
        """The scopes of a frame: of the newest, or of a caller's, whose call left this record."""
        made: dict[str, Callable[[], list[Any]]] = {
            "Registers": functools.partial(self.registers, place) if record is None else functools.partial(self.saved, record),
            "Values": self.values, "Frames": self.frames, "Verdict": self.verdict, "Memory": self.memory,
        }
        if record is None and self.parts:
            made["Evaluated"] = lambda: self.evaluated(place)
        hints = {"Registers": {"presentationHint": "registers"}}
        found = []
        for name, fetch in made.items():
            # the number of variables is not known before they are fetched
            node = Node(1, functools.partial(whole, fetch))
            found.append({
                "name": name, "variablesReference": self.store.put(node), "expensive": name == "Memory", **hints.get(name, {}),
            })
        return found

    def bytes(self, address: int, count: int) -> bytes:
        """The bytes from an address on, up to the end of its region; none outside the regions."""
        region = region_at(self.code, address)
        end = min(address + count, sum(region)) if region else address
        found = b""
        while address < end:
            asked = min(256, end - address)
            for line in self.child.many(f"m 0x{address:x} {asked}"):
                found += bytes.fromhex(line.split(" ", 1)[1])
            address += asked
        return found


def field_of(path: str, key: str) -> str:
    """The expression of a field of an expression."""
    if not path or path.startswith("v "):
        return ""
    return f"{path}.{key}" if KEY.match(key) else f"{path}[{json.dumps(key)}]"


def whole(fetch: Callable[[], list[Any]], _low: int, _high: int) -> list[Any]:
    """What is fetched, whatever part of it is asked for."""
    return fetch()
