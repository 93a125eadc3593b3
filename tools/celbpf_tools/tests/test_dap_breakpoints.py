"""The debug adapter: conditions, breakpoints on values, and a manifest as review."""

import json
import sys
import unittest
from typing import Any

from ..dap.arguments import Arguments, BadRequest
from ..dap.breakpoints import Breakpoints
from ..dap.child import Child
from ..dap.code import Code
from ..dap.conditions import TAKES, condition_of
from ..dap.manifests import review_of
from ..dap.motions import Motion, Run
from . import debugger_stand_in
from .test_dap import IMAGE, Served
from .test_documents import Files

LISTING = {"sourceReference": 1}


class Conditions(unittest.TestCase):
    def holds(self, text: str, **words: int) -> bool:
        (found,) = condition_of(Arguments({"condition": text}))
        return found.holds(words)

    def test_words_without_a_sign(self) -> None:
        for text, wanted in [("r1 == 5", True), ("r1==0x5", True), ("r1 != 5", False), ("r1 < 5", False), ("r1 <= 5", True), ("r1 > 4", True),
                             ("r1 >= 6", False), ("r2 == -1", True), ("r2 > 0x7fffffffffffffff", True), ("  step   >= 3 ", True), ("pc == 0", True)]:
            with self.subTest(text):
                self.assertEqual(self.holds(text, r1=5, r2=2**64 - 1, step=3, pc=0), wanted)

    def test_no_conditions(self) -> None:
        self.assertEqual(condition_of(Arguments({"condition": "  "})), ())
        for given, why in [({"condition": "r11 == 1"}, f"r11 == 1: {TAKES}"), ({"condition": "object.a"}, f"object.a: {TAKES}"),
                           ({"condition": "r1 = 1"}, f"r1 = 1: {TAKES}"), ({"hitCondition": "3"}, "hitCondition: hits are not counted"),
                           ({"logMessage": "a"}, "logMessage: no messages are logged")]:
            with self.subTest(given), self.assertRaises(BadRequest) as raised:
                condition_of(Arguments(given))
            self.assertEqual(str(raised.exception), why)


class Moves(unittest.TestCase):
    """Moves over the run of the stand-in, which is at slot 4 in step 2, at 5 in step 3, at 2 in step 4, and at 3 in step 5."""

    def setUp(self) -> None:
        self.child = Child([sys.executable, "-IS", debugger_stand_in.__file__, "debug", "run.img"])
        self.addCleanup(self.child.end)
        self.breakpoints = Breakpoints()
        self.run_of = Run(self.child, Code(IMAGE, debugger_stand_in.LISTING), self.breakpoints)

    def made(self, motion: Motion) -> tuple[Any, ...]:
        """Why a move stopped, and the step where it did."""
        try:
            while True:
                next(motion)
        except StopIteration as done:
            return done.value, self.run_of.place.step

    def condition(self, number: int, text: str) -> None:
        (self.breakpoints.conditions[number],) = condition_of(Arguments({"condition": text}))

    def test_a_run_passes_where_no_condition_holds(self) -> None:
        self.breakpoints.replace(self.child, ("breakpoint", ""), [(1, (4,)), (2, (2,)), (3, (3,))])
        self.condition(1, "r0 == 7")
        self.condition(2, "r0 == 9")
        self.condition(3, "step == 6")
        run = self.run_of
        self.assertEqual([self.made(run.proceed()) for _ in range(2)], [("breakpoint", 4), ("end", 6)])
        self.assertEqual([self.made(run.reverse()) for _ in range(2)], [("breakpoint", 4), ("entry", 0)])
        self.assertEqual(run.stop_here(), (None, []))

    def test_a_value_is_found_behind_breakpoints_that_do_not_hold(self) -> None:
        self.breakpoints.replace(self.child, ("breakpoint", ""), [(1, (2, 4))])
        self.condition(1, "r0 == 7")
        run = self.run_of
        run.watched = {9}
        self.assertEqual([self.made(run.proceed()) for _ in range(2)], [("data breakpoint", 3), ("end", 6)])
        self.assertEqual([self.made(run.reverse()) for _ in range(2)], [("data breakpoint", 2), ("entry", 0)])


class Requests(Served):
    def test_conditions_of_lines_and_instructions(self) -> None:
        lines = [{"line": 5, "condition": "r0 == 2"}, {"line": 3, "condition": "size(a)"}, {"line": 4, "hitCondition": "2"}]
        found = self.asked(("setBreakpoints", {"source": LISTING, "breakpoints": lines}), ("continue", {"threadId": 1}))
        answers = next(one for one in found if one.get("command") == "setBreakpoints")["body"]["breakpoints"]
        self.assertEqual([one["verified"] for one in answers], [True, False, False])
        self.assertEqual([one.get("message") for one in answers], [None, f"size(a): {TAKES}", "hitCondition: hits are not counted"])
        found = self.body(("setInstructionBreakpoints", {"breakpoints": [{"instructionReference": "2", "condition": "x"}]}))["breakpoints"]
        self.assertEqual(found, [{"id": 1, "verified": False, "message": f"x: {TAKES}"}])

    def test_values_that_are_never_made(self) -> None:
        names = ["v 9", "v 8", "v 99", "r0"]
        found = self.body(("setDataBreakpoints", {"breakpoints": [{"dataId": one} for one in names]}))["breakpoints"]
        later = "there is no such value here; set it where the value is shown"
        self.assertEqual([one["verified"] for one in found], [False] * 4)
        self.assertEqual([one["message"] for one in found],
                         [f"v 9: {later}", "v 8: the program does not make it", f"v 99: {later}", "r0: not the name of a value"])


class Manifests(Files):
    def test_the_review_of_a_manifest(self) -> None:
        pods = "".join(f'{{"apiVersion": "v1", "kind": "Pod", "metadata": {{"name": "{name}"}}}}\n' for name in "ab")
        path = str(self.file("pods.yaml", pods))
        request = json.loads(review_of(path, "b") or "")["request"]
        self.assertEqual((request["operation"], request["object"]["metadata"]["name"], request["namespace"]), ("CREATE", "b", "default"))
        for name, why in ((None, "2 objects for one object"), ("c", "no object is called c")):
            with self.assertRaisesRegex(BadRequest, f"^review: {why}"):
                review_of(path, name)
        thing = str(self.file("thing.yaml", "apiVersion: a.io/v1\nkind: Thing\nmetadata: {name: a}\n"))
        with self.assertRaisesRegex(BadRequest, "^review: Thing a: the kind a.io/v1 Thing is not known"):
            review_of(thing, None)

    def test_a_review_stays(self) -> None:
        path = str(self.file("review.json", '{"apiVersion": "admission.k8s.io/v1", "kind": "AdmissionReview", "request": {"uid": "u"}}'))
        self.assertIsNone(review_of(path, None))
        self.assertIsNone(review_of(str(self.file("half.json", "{")), None))
        with self.assertRaisesRegex(BadRequest, "^object: review has no manifests$"):
            review_of(path, "a")


if __name__ == "__main__":
    unittest.main()
