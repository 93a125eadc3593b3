"""The debug adapter: messages, the listing, and requests over a process that stands in for the program."""

import base64
import io
import json
import os
import stat
import sys
import tempfile
import unittest
from pathlib import Path
from typing import Any, Optional

from ..dap.adapter import Adapter
from ..dap.arguments import Arguments, BadRequest
from ..dap.breakpoints import Breakpoints
from ..dap.child import Child, Ended, place_in
from ..dap.code import Code
from ..dap.launching import Given
from ..dap.messages import BrokenMessage, BrokenStream, Connection
from ..dap.motions import Motion, Run
from ..entry import Stop
from . import debugger_stand_in

IMAGE = b"CELBPF01" + bytes([6, 0, 0, 0, 0, 0, 0, 0]) + bytes(range(48))


def framed(body: bytes) -> bytes:
    """A message with its header."""
    return b"Content-Length: %d\r\n\r\n%s" % (len(body), body)


class Input:
    """A pipe that was filled and closed, as the input of an adapter."""

    def __init__(self, data: bytes):
        self.source, target = os.pipe()
        os.write(target, data)
        os.close(target)

    def close(self) -> None:
        os.close(self.source)


class Messages(unittest.TestCase):
    def read(self, data: bytes) -> Connection:
        given = Input(data)
        self.addCleanup(given.close)
        connection = Connection(given.source, io.BytesIO())
        while not connection.has_ended:
            connection.pump(1)
        return connection

    def test_two_messages_and_the_end(self) -> None:
        connection = self.read(framed(b'{"seq":1}') + b"content-type: x\r\ncontent-length:2\r\n\r\n{}")
        self.assertEqual([connection.next(), connection.next(), connection.next()], [{"seq": 1}, {}, None])

    def test_a_body_that_is_no_object_leaves_the_next_message(self) -> None:
        connection = self.read(framed(b"{") + framed(b"[1]") + framed(b"\xff") + framed(b"{}"))
        for _ in range(3):
            self.assertRaises(BrokenMessage, connection.next)
        self.assertEqual(connection.next(), {})

    def test_headers_that_end_the_stream(self) -> None:
        for header in (b"x\r\n\r\n", b"a: 1\r\n\r\n", b"Content-Length: -1\r\n\r\n", b"Content-Length: 99999999999\r\n\r\n",
                       b"Content-Length: 3\r\n\r\n{", b"Content-Length: 3", b"a" * 5000):
            with self.subTest(header[:20]):
                self.assertRaises(BrokenStream, self.read(header).next)

    def test_what_is_written(self) -> None:
        target = io.BytesIO()
        connection = Connection(0, target)
        connection.event("initialized")
        connection.refuse({"seq": 7, "command": "next"}, "no")
        first, second = target.getvalue().split(b"Content-Length: ")[1:]
        self.assertEqual(first, b'46\r\n\r\n{"seq":1,"type":"event","event":"initialized"}')
        self.assertIn(b'"seq":2,"type":"response","request_seq":7,"command":"next","success":false,"message":"no"', second)


class Words(unittest.TestCase):
    def test_arguments(self) -> None:
        given = Arguments({"n": 3, "t": "x", "b": True, "l": ["a"]})
        self.assertEqual((given.number("n"), given.text("t"), given.truth("b", False), given.texts("l")), (3, "x", True, ["a"]))
        self.assertEqual((given.number("m", 4), given.text("u"), given.parts("p")), (4, None, []))
        for wrong in (lambda: given.number("t"), lambda: given.number("b"), lambda: given.text("n"), lambda: given.texts("n"),
                      lambda: given.number("m"), lambda: given.needed_text("u"), lambda: Arguments([])):
            self.assertRaises(BadRequest, wrong)

    def test_the_line_of_a_move(self) -> None:
        place = place_in("step 30 pc 36 exited 0x0000000000000003")
        self.assertEqual((place.step, place.pc, place.is_running, place.fault), (30, 36, False, None))
        self.assertEqual(place_in("step 1 pc -2 fault F1").fault, "F1")


class Listing(unittest.TestCase):
    """Of the expression in docs/CODE.md, with its slots counted by hand."""

    lines = "mov64 r1, 4\nlddw r2, 0x0000000400000000\nmov64 r3, 4\ncall 5\n"
    code = Code(b"CELBPF02" + bytes([5, 0, 0, 0, 7, 0, 0, 0]) + bytes(range(40)), lines)

    def test_slots_and_lines(self) -> None:
        self.assertEqual([line.slot for line in self.code.lines], [0, 1, 3, 4])
        self.assertEqual([self.code.line_of(slot) for slot in range(-1, 6)], [None, 1, 2, 2, 3, 4, None])
        self.assertEqual([self.code.slot_of(line) for line in range(6)], [None, 0, 1, 3, 4, None])
        self.assertEqual((self.code.slots, self.code.constants), (5, 7))
        # a run stops at the first slot of a wide load alone
        self.assertEqual([self.code.start_of(slot) for slot in range(-1, 6)], [None, 0, 1, 1, 3, 4, None])

    def test_disassembly_is_as_long_as_asked(self) -> None:
        found = self.code.disassembled(3, -3, 6)
        self.assertEqual([one["address"] for one in found], ["-1", "0", "1", "3", "4", "5"])
        self.assertEqual(found[2]["instructionBytes"], "08 09 0a 0b 0c 0d 0e 0f 10 11 12 13 14 15 16 17")
        self.assertEqual([one.get("presentationHint") for one in found], ["invalid", None, None, None, None, "invalid"])


class Served(unittest.TestCase):
    """Requests to an adapter, all of which are there before it begins."""

    def setUp(self) -> None:
        folder = tempfile.TemporaryDirectory()
        self.addCleanup(folder.cleanup)
        self.folder = Path(folder.name)
        self.program = self.folder / "celbpf"
        self.program.write_text(f"#!/bin/sh\nexec {sys.executable} -IS {debugger_stand_in.__file__} \"$@\"\n")
        self.program.chmod(self.program.stat().st_mode | stat.S_IXUSR)
        for name in ("run.img", "fault.img"):
            (self.folder / name).write_bytes(IMAGE)

    def raw(self, data: bytes) -> tuple[list[Any], Optional[Stop]]:
        """The messages that the adapter writes for some input, and how it stops if not well."""
        given, target, stop = Input(data), io.BytesIO(), None
        try:
            Adapter(given.source, target, Given(str(self.program), is_profile=True)).serve()
        except Stop as why:
            stop = why
        given.close()
        parts = target.getvalue().split(b"Content-Length: ")[1:]
        return [json.loads(part.split(b"\r\n\r\n", 1)[1]) for part in parts], stop

    def asked(self, *requests: tuple[Any, ...], image: str = "run.img") -> list[Any]:
        """What is written for requests after a launch, without what the launch itself brings."""
        launch = [("launch", {"image": str(self.folder / image)}), ("configurationDone", {})]
        numbered = enumerate([*launch, *requests], 1)
        texts = [json.dumps({"seq": n, "type": "request", "command": one[0], "arguments": one[1]}) for n, one in numbered]
        found, stop = self.raw(b"".join(framed(text.encode()) for text in texts))
        self.assertIsNone(stop)
        self.assertEqual([self.kind(one) for one in found[:4]], ["launch", "initialized", "configurationDone", "stopped entry"])
        return found[4:]

    def kind(self, message: dict[str, Any]) -> str:
        """A message in a word or two."""
        if message["type"] == "response":
            return message["command"] if message["success"] else f"not {message['command']}"
        return f"stopped {message['body']['reason']}" if message["event"] == "stopped" else message["event"]

    def body(self, *requests: tuple[Any, ...], image: str = "run.img") -> Any:
        """The body of the response to the last request."""
        found = [one for one in self.asked(*requests, image=image) if one["type"] == "response"]
        return found[-1].get("body")


class Requests(Served):
    def kinds(self, *requests: tuple[Any, ...], image: str = "run.img") -> list[Any]:
        return [self.kind(one) for one in self.asked(*requests, image=image)]

    def test_a_request_while_a_move_is_made_waits_for_no_place(self) -> None:
        self.assertEqual(self.kinds(("continue", {"threadId": 1}), ("scopes", {"frameId": 1})), ["continue", "not scopes"])

    def test_requests_that_cannot_be_done(self) -> None:
        for name, given in [("attach", {}), ("no", {}), ("next", {"threadId": 2}), ("variables", {"variablesReference": 99}),
                            ("scopes", {}), ("scopes", {"frameId": 2}), ("exceptionInfo", {"threadId": 1}), ("evaluate", {}),
                            ("launch", {"image": "x"}), ("next", {"threadId": 1, "granularity": "word"}), ("next", [])]:
            with self.subTest(name):
                self.assertEqual(self.kinds((name, given)), [f"not {name}"])

    def test_launches_that_are_refused(self) -> None:
        for given in ({}, {"image": "a", "policy": "b"}, {"image": "/none"}, {"image": 3}, {"image": "a\0"}, {"image": "\ud800"},
                      {"image": "a", "cwd": "/none"}, {"image": "a", "reviw": "b"}):
            text = json.dumps({"seq": 1, "type": "request", "command": "launch", "arguments": given}).encode()
            found, stop = self.raw(framed(text) + framed(b'{"seq":2,"type":"request","command":"stackTrace"}'))
            self.assertEqual(([self.kind(one) for one in found], stop), (["not launch", "not stackTrace"], None))

    def test_the_stack_has_a_frame_for_each_call(self) -> None:
        wanted = [("slot 0", 1)]
        found = self.body(("stackTrace", {"threadId": 1}))
        self.assertEqual([(one["name"], one["line"]) for one in found["stackFrames"]], wanted)

    def test_scopes_and_values(self) -> None:
        scopes = self.body(("scopes", {"frameId": 1}))["scopes"]
        self.assertEqual([one["name"] for one in scopes], ["Registers", "Values", "Frames", "Verdict", "Memory"])
        registers = self.body(("scopes", {"frameId": 1}), ("variables", {"variablesReference": 1}))["variables"]
        self.assertEqual([one["name"] for one in registers], [*(f"r{n}" for n in range(11)), "pc", "step", "status"])
        values = self.body(("scopes", {"frameId": 1}), ("variables", {"variablesReference": 2}))["variables"]
        self.assertEqual((values[0]["name"], values[0]["value"]), ("object", '{"spec":{"replicas":5,"names":["a","b"]}}'))
        asked = [("scopes", {"frameId": 1}), ("variables", {"variablesReference": 2}), ("variables", {"variablesReference": 6})]
        fields = self.body(*asked)["variables"]
        self.assertEqual([(one["name"], one["evaluateName"]) for one in fields], [("spec", "object.spec")])

    def test_memory(self) -> None:
        found = self.body(("readMemory", {"memoryReference": "0x300000000", "offset": 0, "count": 3}))
        self.assertEqual((base64.b64decode(found["data"]), "unreadableBytes" in found), (bytes(3), False))
        found = self.body(("readMemory", {"memoryReference": "0x0", "count": 3}))
        self.assertEqual(found, {"address": "0x0000000000000000", "unreadableBytes": 3})

    def test_breakpoints_by_line(self) -> None:
        found = self.body(("setBreakpoints", {"source": {"sourceReference": 1}, "breakpoints": [{"line": 3}, {"line": 7}]}))
        first, second = found["breakpoints"]
        self.assertEqual((first["verified"], first["line"], first["instructionReference"]), (True, 3, "2"))
        self.assertEqual((second["verified"], second["message"]), (False, "the listing has 6 lines"))

    def test_one_wrong_instruction_breakpoint_is_not_set(self) -> None:
        wanted = [{"instructionReference": name} for name in ("2", "x", "6")]
        found = self.body(("setInstructionBreakpoints", {"breakpoints": wanted}))["breakpoints"]
        self.assertEqual([one["verified"] for one in found], [True, False, False])
        self.assertEqual(found[1]["message"], "instructionReference: x is no address")

    def test_what_the_console_does_not_take(self) -> None:
        for text in ("help", "b 3", "s", "go 4"):
            with self.subTest(text):
                self.assertIn("the console takes registers", self.asked(("evaluate", {"expression": text}))[-1]["message"])

    def test_parts_of_an_image_alone(self) -> None:
        found = self.body(("setFunctionBreakpoints", {"breakpoints": [{"name": "validation 0"}]}))["breakpoints"][0]
        self.assertEqual((found["verified"], found["message"]), (False, "validation 0: an image alone has no parts by name"))

    def test_what_is_typed(self) -> None:
        for text, wanted in [("r10", "0x0000000100000200"), ("pc", "0"), ("v 8", '{"uid":"u1"}'), ("w", "verdict 0 0")]:
            self.assertEqual(self.body(("evaluate", {"expression": text}))["result"], wanted)

    def test_disconnecting_ends_it(self) -> None:
        self.assertEqual(self.kinds(("disconnect", {}), ("threads", {})), ["disconnect"])

    def test_terminating(self) -> None:
        self.assertEqual(self.kinds(("terminate", {}), ("terminate", {})), ["terminate", "terminated", "not terminate"])


class Moves(unittest.TestCase):
    """Moves over the run of the stand-in, whose places are told in its head."""

    def setUp(self) -> None:
        self.child = Child([sys.executable, "-IS", debugger_stand_in.__file__, "debug", "run.img"])
        self.addCleanup(self.child.end)
        self.breakpoints = Breakpoints()
        self.run_of = Run(self.child, Code(IMAGE, debugger_stand_in.LISTING), self.breakpoints)

    def part_at(self, slot: int) -> Optional[str]:
        """Slots 0 and 1 as one part, 2 and 3 as another, and the routine as a third."""
        return ["a", "a", "b", "b", "v", "v"][slot]

    def made(self, motion: Motion) -> tuple[Any, ...]:
        """Why a move stopped, and the step where it did."""
        try:
            while True:
                next(motion)
        except StopIteration as done:
            return done.value, self.run_of.place.step

    def test_steps(self) -> None:
        run = self.run_of
        self.assertEqual(self.made(run.step_back()), ("entry", 0))
        self.assertEqual([self.made(run.step()) for _ in range(3)], [("step", 1), ("step", 2), ("step", 3)])
        self.assertEqual(self.made(run.out()), ("step", 4))
        self.assertEqual([self.made(run.step_back()) for _ in range(3)], [("step", 3), ("step", 2), ("step", 1)])
        self.assertEqual(self.made(run.over()), ("step", 4))
        self.assertEqual(self.made(run.proceed()), ("end", 6))
        self.assertEqual(self.breakpoints.slots(), set())

    def test_breakpoints_both_ways(self) -> None:
        self.assertEqual(self.breakpoints.replace(self.child, ("breakpoint", ""), [(1, (4,)), (2, (2, 3))]), {})
        run = self.run_of
        forward = [self.made(run.proceed()) for _ in range(4)]
        self.assertEqual(forward, [("breakpoint", 2), ("breakpoint", 4), ("breakpoint", 5), ("end", 6)])
        # at its end the program is at slot 3 again, whose breakpoint is reached at step 5
        back = [self.made(run.reverse()) for _ in range(4)]
        self.assertEqual(back, [("breakpoint", 5), ("breakpoint", 4), ("breakpoint", 2), ("entry", 0)])
        self.breakpoints.replace(self.child, ("breakpoint", ""), [])
        self.assertEqual(self.made(run.proceed()), ("end", 6))

    def test_a_breakpoint_within_a_call_stops_a_step_over_it(self) -> None:
        self.breakpoints.replace(self.child, ("breakpoint", ""), [(1, (5,))])
        self.made(self.run_of.step())
        self.assertEqual(self.made(self.run_of.over()), ("breakpoint", 3))

    def test_the_making_of_a_value(self) -> None:
        run = self.run_of
        run.watched = {9}
        self.assertEqual(self.made(run.proceed()), ("data breakpoint", 3))
        self.assertEqual(self.made(run.proceed()), ("end", 6))
        # slot 4 has the call that makes it
        self.assertEqual((self.made(run.reverse()), run.place.pc), (("data breakpoint", 2), 4))
        self.assertEqual(self.made(run.reverse()), ("entry", 0))

    def test_parts(self) -> None:
        run = self.run_of
        self.assertEqual([self.made(run.next_part(self.part_at, True)) for _ in range(3)], [("step", 2), ("step", 4), ("end", 6)])
        self.assertEqual([self.made(run.last_part(self.part_at)) for _ in range(3)], [("step", 4), ("step", 2), ("entry", 0)])
        self.assertEqual(self.made(run.next_part(self.part_at, False)), ("step", 4))


class Broken(Served):
    def test_messages(self) -> None:
        request = framed(b'{"seq":5,"type":"request","command":"threads"}')
        found, stop = self.raw(framed(b"{") + framed(b'{"type":"event"}') + request)
        self.assertEqual(([self.kind(one) for one in found], stop), (["output", "output", "threads"], None))

    def test_a_stream(self) -> None:
        found, stop = self.raw(b"GET / HTTP/1.1\r\n\r\n")
        self.assertEqual([self.kind(one) for one in found], ["output", "terminated"])
        self.assertEqual((stop and stop.status, stop and stop.line), (3, "a header line without a colon: 'GET / HTTP/1.1'"))

    def test_a_process_that_is_gone(self) -> None:
        child = Child([sys.executable, "-IS", "-c", "import sys; sys.exit('celbpf: N2')"])
        with self.assertRaises(Ended) as why:
            child.ask("f")
        self.assertEqual(str(why.exception), "celbpf: N2")
        child.end()
