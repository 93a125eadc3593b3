"""The dozen shapes: their sizes, what their turns read, and where they are put; and what reviews from a seed read."""

import json
import unittest

from ..hostile import loops
from ..hostile.known import DOCUMENT_READS, READS, compared, known, looped
from ..hostile.places import at, chosen, lines, places, put
from ..hostile.shapes import MOST, SHAPES, short_keys, tower
from ..hostile.watched import Cost

# the bytes of the lines that are made here
ROOM = 100_000
REVIEW = {
    "kind": "AdmissionReview",
    "request": {"uid": "u", "object": {"metadata": {"labels": {"b": "c"}}, "spec": {"items": [1, "x"]}}, "oldObject": None},
}
TURNS = (
    loops.contains, loops.size, loops.equal, loops.member, loops.keys, loops.put, loops.join, loops.less, loops.ends,
)


def depth(value: object) -> int:
    """How many lists and maps are in one another."""
    if isinstance(value, dict):
        value = list(value.values())
    return 1 + max(map(depth, value), default=0) if isinstance(value, list) else 0


class Turns(unittest.TestCase):
    def test_reads_by_the_table_of_helpers(self) -> None:
        # worked by hand for a room of 80 bytes
        wanted = {
            # 48 letters, searched for 20, a b and 20 more
            "contains": 48 + 41,
            "size": 80,
            # [0,0,..] of 21 ints
            "equal": 43,
            # ten items: the text of the list, of 8 bytes an item and 1 more, and of [[[0]]]
            "member": 81 + 7,
            # three keys of four bytes, among a thousand
            "keys": 3 * 4 * 10,
            "put": 1 + 41,
            "join": 40,
            "less": 41,
            "ends": 2 * 41,
        }
        self.assertEqual({turn.__name__: turn(80).reads for turn in TURNS}, wanted)

    def test_documents_are_of_the_size_that_is_asked_for(self) -> None:
        for turn in TURNS:
            made = loops.length(turn(100_000).document(0))
            self.assertLess(made, 102_000, turn.__name__)
            self.assertGreater(made, 45_000, turn.__name__)


class Shapes(unittest.TestCase):
    def test_there_are_a_dozen(self) -> None:
        self.assertEqual(len({shape.name for shape in SHAPES}), 12)

    def test_lines_are_reviews_within_the_bound(self) -> None:
        for shape in SHAPES:
            line = shape.line(ROOM)
            self.assertLessEqual(len(line), ROOM, shape.name)
            self.assertGreater(len(line), ROOM // 2, shape.name)
            self.assertEqual(line.count(b"\n"), 1)
            self.assertEqual(json.loads(line)["request"]["uid"], "u")

    def test_limited_loops_pass_ten_times_the_limit(self) -> None:
        limited = {shape.name for shape in SHAPES if shape.is_limited}
        turns = {turn.__name__: turn for turn in TURNS}
        # each but the one that has an expression of its own
        self.assertEqual(limited - turns.keys(), {"many keys"})
        for name in sorted(limited & turns.keys()):
            self.assertGreater(turns[name](MOST // 2).reads * loops.SIDE**2, 20 * 2**28)

    def test_depth_is_within_that_of_readers(self) -> None:
        self.assertLessEqual(depth(tower(0)), 110)

    def test_short_keys_differ(self) -> None:
        made = short_keys(100_000)
        self.assertEqual(len(set(made)), 100_000)
        self.assertEqual({len(key) for key in made}, {4})


class Places(unittest.TestCase):
    def test_places_of_a_kind(self) -> None:
        found = list(places({"a": [1, "x"], "b": {"c": None}}, str))
        self.assertEqual(found, [("a", 1)])
        self.assertEqual(list(places({"b": {"c": None}}, dict)), [(), ("b",)])

    def test_put_at_a_path(self) -> None:
        whole = {"a": [1, {"b": 2}]}
        self.assertEqual(put(whole, ("a", 1, "b"), 3), {"a": [1, {"b": 3}]})
        self.assertEqual(whole, {"a": [1, {"b": 2}]})
        self.assertEqual(at(whole, ("a", 1, "b")), 2)

    def test_few_places_are_chosen(self) -> None:
        self.assertEqual(chosen(list(range(9))), [0, 3, 6])
        self.assertEqual(chosen([]), [])

    def test_lines_are_reviews_within_the_bound(self) -> None:
        for shape in SHAPES:
            made = list(lines(REVIEW, shape, ROOM))
            self.assertTrue(made, shape.name)
            for line in made:
                self.assertLessEqual(len(line), ROOM, shape.name)
                self.assertGreater(len(line), ROOM // 3, shape.name)
                self.assertEqual(json.loads(line)["request"]["uid"], "u")


class KnownReads(unittest.TestCase):
    def test_loops_by_hand(self) -> None:
        # the key l among three, twice; in each turn the keys t and u, twice each, and the search
        self.assertEqual(looped("contains", loops.contains(80), 3).reads, 2 + 3 * (2 + 2 + 89))
        # the key l among four, three times; in each turn five keys of `object`, three times each, three searches in m, and
        # the int 0
        self.assertEqual(looped("keys", loops.keys(80), 2).reads, 3 + 2 * (15 + 120 + 1))

    def test_documents_by_hand(self) -> None:
        request = {"object": {"l": [1, "é", []]}, "oldObject": {"l": []}}
        wanted = {"true": 0, "object.l.size() >= 0": 1, "object == oldObject": 0, "object != oldObject": 0}
        # the key l, and the JSON texts 1, "é" and []
        wanted["object.l.all(x, x == x)"] = 1 + 1 + 4 + 2
        self.assertEqual({expression: reads(request) for expression, reads in DOCUMENT_READS.items()}, wanted)
        self.assertEqual(compared({"object": {"a": 1}, "oldObject": {"b": 2}}), 7)

    def test_reviews_are_within_the_bounds(self) -> None:
        for number in range(4):
            case = known(7, number)
            self.assertLessEqual(len(case.line), MOST)
            self.assertLessEqual(case.reads, READS)
            self.assertEqual(case.line.count(b"\n"), 1)
            self.assertEqual(json.loads(case.line)["request"]["uid"], "u")
            self.assertEqual(case.policy["spec"]["validations"], [{"expression": case.expression}])


class Costs(unittest.TestCase):
    def test_bounds(self) -> None:
        self.assertTrue(Cost(0.4, 149, "{}\n").is_within)
        self.assertFalse(Cost(0.6, 10, "{}\n").is_within)
        self.assertFalse(Cost(0.1, 151, "{}\n").is_within)
        self.assertFalse(Cost(0.1, 10, "").is_within)

    def test_all_steps_may_take_longer(self) -> None:
        self.assertTrue(Cost(0.7, 10, '{"refused":"N4","policy":"p"}\n').is_within)
        self.assertFalse(Cost(0.7, 10, '{"refused":"N7","policy":"p"}\n').is_within)

    def test_endings(self) -> None:
        self.assertEqual(Cost(0, 0, '{"refused":"N7","policy":"p"}\n').ending, "N7")
        self.assertEqual(Cost(0, 0, '{"response":{"allowed":true}}\n').ending, "allowed")
        self.assertEqual(Cost(0, 0, '{"response":{"allowed":false}}\n').ending, "denied")
        self.assertEqual(Cost(0, 0, "").ending, "ended")
