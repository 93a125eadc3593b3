"""Tests of the map from slots to sub-expressions. The slots are counted by hand from the rules of docs/CODE.md."""

import json
import re
import unittest
from typing import Any

from ..home import EXAMPLES, ROOT
from ..slots.layout import program_of
from ..slots.mapping import NotMapped, SlotMap, map_of

TRUE = [{"expression": "true"}]
# the code of `object.spec.a <= object.spec.b`, which keeps `object.spec` in word 0
KEPT = [
    "mov64 r1, 4", "lddw r2, 0x0000000400000000", "mov64 r3, 4",
    "call 5", "stxdw [r10-8], r0", "ldxdw r1, [r10-8]",
    "lddw r2, 0x0000000400000004", "mov64 r3, 1", "call 5",
    "stxdw [r10-16], r0", "ldxdw r1, [r10-8]", "lddw r2, 0x0000000400000005",
    "mov64 r3, 1", "call 5", "mov64 r1, r0",
    "ldxdw r2, [r10-16]", "call 10", "mov64 r1, r0",
    "call 23",
]


def mapped(**spec: object) -> SlotMap:
    """The map of a policy with this specification."""
    return SlotMap(program_of({"spec": spec}))


def shown(spans: list[Any]) -> list[Any]:
    """The slots, the text and the register of each span."""
    return [(span.first, span.last, span.text, span.register) for span in spans]


def listing_of_the_page() -> list[Any]:
    """The listing of the page on code."""
    page = (ROOT / "docs" / "CODE.md").read_text()
    block = re.search(r"(?:^    .+\n)+", page, re.MULTILINE)
    return [line.strip() for line in block.group().splitlines()] if block else []


class Expressions(unittest.TestCase):
    """Sub-expressions in the code of one validation."""

    def begins_with(self, text: str, listing: list[Any]) -> None:
        """The code of the policy with this one validation begins with the listing."""
        lines = list(mapped(validations=[{"expression": text}]).lines.values())
        self.assertTrue(listing)
        self.assertEqual(lines[: len(listing)], listing)

    def test_listing_of_the_page(self) -> None:
        self.begins_with("object.spec.replicas <= 3", listing_of_the_page())

    def test_listing_of_a_kept_field(self) -> None:
        self.begins_with("object.spec.a <= object.spec.b", KEPT)

    def test_comparison(self) -> None:
        spans = mapped(validations=[{"expression": "object.spec.replicas <= 3"}])
        self.assertEqual(spans.size, 37)
        expected = [
            (0, 18, "object.spec.replicas <= 3", "r0"), (0, 9, "object.spec.replicas", "r0"),
            (0, 4, "object.spec", "r0"), (0, 0, "object", "r1"), (11, 13, "3", "r0"),
        ]
        self.assertEqual(shown(spans.of_part("validation", 0))[:5], expected)
        self.assertEqual([span.text for span in spans.around(13)], ["object.spec.replicas <= 3", "3"])

    def test_kept_field(self) -> None:
        spans = mapped(validations=[{"expression": "object.spec.a <= object.spec.b"}])
        kept = [span for span in spans.spans if span.role == "kept"]
        self.assertEqual(shown(kept), [(0, 5, "object.spec", "r0")])
        uses = [span for span in spans.spans if span.text == "object.spec" and span.role == "expression"]
        self.assertEqual([(span.first, span.begin) for span in uses], [(6, 0), (12, 17)])

    def test_macro(self) -> None:
        # the range takes 5 slots, and 17 are between it and the turn, of which the last 6 name the item
        spans = mapped(validations=[{"expression": "object.a.all(i, i == 1)"}])
        found = {(span.text, span.role): (span.first, span.last) for span in spans.of_part("validation", 0)}
        self.assertEqual(found["object.a", "expression"], (0, 4))
        self.assertEqual(found["object.a.all(i, i == 1)", "item"], (16, 21))
        self.assertEqual(found["i == 1", "expression"], (22, 27))
        # after the turn 4 slots test its truth, and 6 go on
        self.assertEqual(found["object.a.all(i, i == 1)", "expression"], (0, 37))

    def test_bytes_of_texts(self) -> None:
        # a text of two characters and three bytes is followed by one that begins 3 bytes on
        lines = list(mapped(validations=[{"expression": "'aé' == 'b'"}]).lines.values())
        self.assertEqual(lines[:2], ["lddw r1, 0x0000000400000000", "mov64 r2, 3"])
        self.assertIn("lddw r1, 0x0000000400000003", lines)


class Policies(unittest.TestCase):
    """Parts of a policy."""

    def test_parts(self) -> None:
        spans = mapped(
            variables=[{"name": "n", "expression": "object.n"}],
            matchConditions=[{"name": "c", "expression": "true"}],
            validations=[{"expression": "variables.n == null", "messageExpression": "'m'"}, *TRUE],
        )
        # the page on code: a condition is followed by 9 slots, all of them by 5, a validation by 10, a message by 7;
        # a use of a variable takes 6, its memo 6
        roles = [(span.first, span.last, span.title, span.role) for span in spans.spans if span.depth == 0]
        expected = [
            (0, 0, "variable 0 n", "jump over"), (1, 5, "variable 0 n", "expression"), (6, 11, "variable 0 n", "memo"),
            (12, 12, "condition 0 c", "expression"), (13, 21, "condition 0 c", "condition"),
            (22, 26, "the policy", "decided"),
            (27, 35, "validation 0", "expression"), (36, 45, "validation 0", "result"),
            (46, 49, "message of validation 0", "expression"), (50, 56, "message of validation 0", "text"),
            (57, 57, "validation 1", "expression"), (58, 67, "validation 1", "result"),
            (68, 74, "the policy", "outcome"), (75, 75, "the policy", "exit"),
        ]
        self.assertEqual(roles, expected)
        # from the slot after the call, 33, it goes back to slot 1
        self.assertEqual((spans.lines[32], getattr(spans.at(32), "text", "")), ("call_local -32", "variables.n"))

    def test_ignored_errors(self) -> None:
        lines = mapped(failurePolicy="Ignore", validations=TRUE).lines
        self.assertEqual([lines[slot] for slot in (1, 4, 6)], ["jeq64 r0, 3, +9", "jeq64 r0, 2, +2", "ja +4"])

    def test_each_slot_of_the_examples(self) -> None:
        for path in sorted(EXAMPLES.glob("*/policy.json")):
            spans = SlotMap(program_of(json.loads(path.read_text())))
            for slot in range(spans.size):
                around = spans.around(slot)
                self.assertEqual([span.depth for span in around], list(range(len(around))), f"{path} slot {slot}")
                self.assertEqual(len({span.title for span in around}), 1, f"{path} slot {slot}")
                self.assertIs(spans.at(slot), around[-1])

    def test_another_listing(self) -> None:
        policy = {"spec": {"validations": TRUE}}
        listing = "\n".join(mapped(validations=TRUE).lines.values())
        self.assertEqual(map_of(policy, listing).size, 19)
        with self.assertRaises(NotMapped):
            map_of(policy, listing.replace("mov64 r0, 3", "mov64 r0, 2", 1))
        with self.assertRaises(NotMapped):
            map_of({"spec": {"validations": [{"expression": "1 +"}]}}, listing)
