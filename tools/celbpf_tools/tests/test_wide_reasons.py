"""Values of expressions as clusters store them, where an error begins, and why one is false."""

import unittest
from pathlib import Path
from typing import Any

from ..asking.errors import first_error
from ..asking.program import Program
from ..asking.reasons import reasons
from ..asking.translating import Translating
from ..asking.values import Values
from .evaluated_program import Evaluated

OBJECT: dict[str, Any] = {
    "metadata": {"labels": {"app": "shop", "team": "x"}},
    "spec": {"replicas": 7, "containers": [{"name": "a", "image": "reg/a"}, {"name": "b", "image": "hub/b"}], "args": ["x"]},
}
VALUES = [
    ("object.spec.?replicas", "optional.of(7)"), ("object.spec.?none", "optional.none()"), ("object.none", "error"),
    ("object.spec.?replicas.orValue(1)", "7"), ("object.spec.?args", 'optional.of(["x"])'), ("optional.of([])", "optional.of([])"),
    ("variables.most", "optional.of(3)"), ("object.none.?a", "error"),
]
# an expression that is false, and its tree with what to change
REASONS = [
    ("object.spec.?replicas.orValue(1) <= 3", [
        "object.spec.?replicas.orValue(1) is 7",
        "  object.spec.?replicas is optional.of(7)",
        "to be true: object.spec.replicas has to be at most 3",
    ]),
    ("object.spec.?paused.orValue(false)", [
        "object.spec.?paused is optional.none()",
        "to be true: object.spec.paused has to be true",
    ]),
    ("object.spec.?replicas.orValue(object.most) < 5", [
        "object.spec.?replicas.orValue(object.most) is 7",
        "  object.spec.?replicas is optional.of(7)",
        "to be true: object.spec.replicas has to be below 5",
    ]),
    ("object.spec.?paused.orValue(0) > 1", [
        "object.spec.?paused.orValue(0) is 0",
        "  object.spec.?paused is optional.none()",
        "to be true: object.spec has to have the field paused and object.spec.paused has to be above 1",
    ]),
    ("object.metadata.?annotations.hasValue()", [
        "object.metadata.?annotations is optional.none()",
        "to be true: object.metadata has to have the field annotations",
    ]),
    ("object.spec.?containers.orValue([]).all(c, c.image.startsWith('reg/'))", [
        'object.spec.?containers.orValue([]) is [{"image":"reg/a","name":"a"},{"image":"hub/b","name":"b"}]',
        '  object.spec.?containers is optional.of([{"image":"reg/a","name":"a"},{"image":"hub/b","name":"b"}])',
        'item 1 of 2 decides: c is {"image":"hub/b","name":"b"}',
        "  c.image.startsWith('reg/') is false",
        '    c.image is "hub/b"',
        "to be true: object.spec.containers[1].image has to start with 'reg/'",
    ]),
    ("object.metadata.labels.all(k, v, k != 'team' || v == 'y')", [
        'object.metadata.labels is {"app":"shop","team":"x"}',
        'item 1 of 2 decides: k is "team" and v is "x"',
        "  k != 'team' || v == 'y' is false",
        "    k != 'team' is false",
        '      k is "team"',
        "    v == 'y' is false",
        '      v is "x"',
        "to be true: the key 'team' of object.metadata.labels has to be other than 'team', or object.metadata.labels['team'] has to "
        "be equal to 'y'",
    ]),
    ("object.spec.args.exists(i, a, i == 0 && a == 'y')", [
        'object.spec.args is ["x"]',
        'item 0 of 1, as the others, i is 0 and a is "x"',
        "  i == 0 && a == 'y' is false",
        "    i == 0 is true",
        "    a == 'y' is false",
        '      a is "x"',
        "to be true: object.spec.args has to have an item i, a for which i == 0 && a == 'y' is true",
    ]),
    ("object.spec.containers.all(c, [c.name, 'b'].all(i, n, n != 'b' || i < size(c.name)))", [
        'object.spec.containers is [{"image":"reg/a","name":"a"},{"image":"hub/b","name":"b"}]',
        'item 0 of 2 decides: c is {"image":"reg/a","name":"a"}',
        "  [c.name, 'b'].all(i, n, n != 'b' || i < size(c.name)) is false",
        '    [c.name, \'b\'] is ["a","b"]',
        '      c.name is "a"',
        '    item 1 of 2 decides: i is 1 and n is "b"',
        "      n != 'b' || i < size(c.name) is false",
        "        n != 'b' is false",
        '          n is "b"',
        "        i < size(c.name) is false",
        "          i is 1",
        "          size(c.name) is 1",
        '            c.name is "a"',
        "to be true: n has to be other than 'b', or the index 1 has to be below 1 (size(object.spec.containers[0].name)); "
        "n has to be other than 'b', or the index 1 has to be below 1 (size(object.spec.containers[1].name))",
    ]),
    ("object.spec.containers.all(i, c, i == 0 || c.all(k, v, k != 'image'))", [
        'object.spec.containers is [{"image":"reg/a","name":"a"},{"image":"hub/b","name":"b"}]',
        'item 1 of 2 decides: i is 1 and c is {"image":"hub/b","name":"b"}',
        "  i == 0 || c.all(k, v, k != 'image') is false",
        "    i == 0 is false",
        "      i is 1",
        "    c.all(k, v, k != 'image') is false",
        '      c is {"image":"hub/b","name":"b"}',
        '      item 0 of 2 decides: k is "image" and v is "hub/b"',
        "        k != 'image' is false",
        '          k is "image"',
        "to be true: the index 1 of object.spec.containers has to be equal to 0, or the key 'image' of object.spec.containers[1] has "
        "to be other than 'image'",
    ]),
    ("object.metadata.?labels.orValue({}).all(k, v, v == 'shop')", [
        'object.metadata.?labels.orValue({}) is {"app":"shop","team":"x"}',
        '  object.metadata.?labels is optional.of({"app":"shop","team":"x"})',
        'item 1 of 2 decides: k is "team" and v is "x"',
        "  v == 'shop' is false",
        '    v is "x"',
        "to be true: object.metadata.labels['team'] has to be equal to 'shop'",
    ]),
    ("sets.contains(['a'], object.spec.args)", [
        'object.spec.args is ["x"]',
        """to be true: ['a'] has to have every item of ["x"] (object.spec.args)""",
    ]),
    ("object.spec.?replicas.optMap(r, r < 5).orValue(true)", [
        "object.spec.?replicas.optMap(r, r < 5) is optional.of(false)",
        "  object.spec.?replicas is optional.of(7)",
        "  r < 5 is false",
        "    r is 7",
        "to be true: object.spec.?replicas.optMap(r, r < 5).orValue(true) has to be true",
    ]),
]
# an expression that is the error, and what is said of it
ERRORS = [
    ("object.spec.?replicas.orValue(1) / 0 == 1", [
        "the first error is object.spec.?replicas.orValue(1) / 0", "where object.spec.?replicas.orValue(1) is 7",
    ]),
    ("object.spec.?none.orValue(1 / 0) == 1", ["the first error is 1 / 0"]),
    ("object.spec.?replicas.optMap(r, r / 0).hasValue()", [
        "the first error is r / 0", "where r is the value of object.spec.?replicas: 7",
    ]),
    ("object.metadata.labels.all(k, v, k == 'app' || v > 1)", [
        "the first error is v > 1", "where k is \"team\" of object.metadata.labels, and v is \"x\"",
    ]),
    ("optional.of(object.none).hasValue()", [
        "the first error is object.none",
        'where object is {"metadata":{"labels":{"app":"shop","team":"x"}},"spec":{"args":["x"],"containers":'
        '[{"image":"reg/a","name":"a"},{"image":"hub/b","name":"b"}],"replicas":7}}',
    ]),
]
SCOPE = [{"name": "most", "expression": "optional.of(3)"}]


class Wide(unittest.TestCase):
    def setUp(self) -> None:
        self.program = Evaluated(OBJECT)

    def test_values(self) -> None:
        for text, due in VALUES:
            with self.subTest(text):
                self.assertEqual(Values(self.program, SCOPE).of(text, []), due)

    def test_a_condition_has_no_namespace(self) -> None:
        words = ["--review", "r", "--namespace", "n", "--params", "p"]
        program = Translating(Path("celbpf"), Path("gatekeeper"), "", words)
        self.assertEqual(program.of("condition").documents, ["--review", "r", "--params", "p"])
        self.assertEqual(program.of("validation").documents, words)
        self.assertEqual(Program(Path("celbpf"), "", words).of("condition").documents, words)

    def test_reasons(self) -> None:
        for text, due in REASONS:
            with self.subTest(text):
                self.assertEqual(reasons(self.program, SCOPE, text, True), due)

    def test_errors(self) -> None:
        for text, due in ERRORS:
            with self.subTest(text):
                self.assertEqual(first_error(self.program, SCOPE, text), due)


if __name__ == "__main__":
    unittest.main()
