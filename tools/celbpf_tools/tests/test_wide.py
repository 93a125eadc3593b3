"""The wide language: expressions with what they mean, and which are refused where."""

import json
import unittest
from typing import Any

from ..evaluator.refused import Refused
from ..evaluator.values import ERROR
from ..wide.expression import Scope, taken, variable
from ..wide.meaning import Meaning

OBJECT: dict[str, Any] = {
    "metadata": {"name": "web", "labels": {"app": "shop", "team/a": "x"}},
    "spec": {
        "replicas": 3, "paused": False, "note": None, "image": "reg.io/app:1.2", "cpu": "250m",
        "args": ["-v", "--x=1"], "ports": [{"name": "http", "port": 80}, {"port": 443}], "sel": {},
    },
}
ROOTS: dict[str, Any] = {
    "object": OBJECT,
    "oldObject": None,
    "params": {"max": 5, "res": ["^reg\\.io/"], "mem": "1Gi"},
    "namespaceObject": None,
    "request": {"userInfo": {"username": "u1", "groups": ["dev", "ops"]}, "operation": "CREATE"},
}
# an expression, and its value as JSON, or `error`
VALUES = [
    ('object.spec.?replicas.orValue(1)', '3'),
    ("object.metadata.labels.existsOne(k, v, v == 'x')", 'true'),
    ('object.spec.?missing.orValue(1)', '1'),
    ('object.spec.args.isSorted()', 'false'),
    ("object.spec.?missing.deep.orValue('d')", '"d"'),
    ("object.spec.args.join(',')", '"-v,--x=1"'),
    ('oldObject.?spec.hasValue()', 'false'),
    ("'%s has %d'.format([object.metadata.name, object.spec.replicas])", '"web has 3"'),
    ('object.missing.?x.hasValue()', 'error'),
    ('type(object.spec.replicas) == int', 'true'),
    ('object.spec.args.?x.hasValue()', 'error'),
    ("object.spec.image.matches('^reg[.]io/[a-z]+:[0-9]+')", 'true'),
    ('object.spec.args[?-1].hasValue()', 'false'),
    ("object.spec.note.matches('a')", 'error'),
    ("object.metadata.labels[?'app'] == optional.of('shop')", 'true'),
    ('params.res.exists(p, object.spec.image.matches(p))', 'true'),
    ('object.metadata.labels[?object.spec.note].hasValue()', 'error'),
    ("object.spec.image.split(':')[1]", '"1.2"'),
    ('object.spec.?missing[object.nothing].hasValue()', 'false'),
    ("object.spec.image.substring(object.spec.image.lastIndexOf('/') + 1)", '"app:1.2"'),
    ('object.spec.?a == object.spec.?b', 'true'),
    ("'TacoCat'.lowerAscii() + 'Ö'.lowerAscii()", '"tacocatÖ"'),
    ('object.spec.?note == optional.none()', 'false'),
    ("'hello hello'.replace('he', 'we', 1)", '"wello hello"'),
    ('object.spec.?note.value()', 'null'),
    ("quantity(object.spec.cpu).isLessThan(quantity('0.5'))", 'true'),
    ('object.spec.?missing.value()', 'error'),
    ("quantity('1000m').isInteger()", 'false'),
    ('object.spec.?replicas.optMap(r, r * 2).orValue(0)', '6'),
    ("quantity('50k').add(quantity('20k')).compareTo(quantity('70k'))", '0'),
    ("object.metadata.?labels.optFlatMap(l, l.?app).orValue('')", '"shop"'),
    ("int('-7') + int(object.spec.replicas)", '-4'),
    ('object.spec.?replicas.orValue(object.nothing)', '3'),
    ("bool('True')", 'true'),
    ('optional.ofNonZeroValue(object.spec.sel).hasValue()', 'false'),
    ("duration('1.5h').getMinutes()", '90'),
    ('[?object.spec.?a, object.spec.replicas]', '[3]'),
    ("timestamp('2026-03-01T00:00:00Z') - duration('24h') == timestamp('2026-02-28T00:00:00Z')", 'true'),
    ("{?'a': object.spec.?a, ?'r': object.spec.?replicas}", '{"r": 3}'),
    ("semver('1.0.0-alpha.2').isLessThan(semver('1.0.0-alpha.10'))", 'true'),
    ('has(oldObject.spec)', 'false'),
    ("cidr('10.0.0.0/8').containsIP(ip('10.1.2.3'))", 'true'),
    ('has(object.metadata.labels.`team/a`)', 'true'),
    ("isIP('::ffff:1.2.3.4')", 'false'),
    ('.object.spec.replicas == 3', 'true'),
    ('format.dns1123Label().validate(object.metadata.name).hasValue()', 'false'),
    ("'''it's'''", '"it\'s"'),
    ("'abc 123 def 456'.findAll('[0-9]+')", '["123", "456"]'),
    ('r"""\\d"""', '"\\\\d"'),
    ('object.missing[?-1].hasValue()', 'error'),
    ('1 < 2u', 'true'),
    ('object.spec.note[?object.nothing].hasValue()', 'error'),
    ('--object.spec.replicas', '3'),
    ("object.spec.ports.map(p, p.?name.orValue('-'))", '["http", "-"]'),
    ('string(object.spec.paused)', '"false"'),
    ('object.spec.ports.exists(p, p.?name == object.metadata.?name)', 'false'),
    ('string(object.spec.note)', 'error'),
    ("object.spec.args.exists(request, request == '-v')", 'true'),
    ('object.nothing in []', 'false'),
    ("object.spec.sel.?a.?b[object.nothing].or(optional.of('x')).value()", '"x"'),
    ('object.metadata.labels.all(k, v, k != v)', 'true'),
    ('has(params.none) || params.max == 5', 'true'),
    ("object.spec.args.exists(i, a, i == 1 && a.startsWith('--'))", 'true'),
    ("params.res.exists(p, ('xx' + object.spec.image).matches(p))", 'false'),
    ("object.metadata.labels.transformList(k, v, k + '=' + v)", '["app=shop", "team/a=x"]'),
    ('[2, 1, 2].distinct() == [2, 1]', 'true'),
]
# an expression, and its refusal
REFUSALS = [
    ("b'a' == b'a'", "W1 at 0"),
    ("1.5 < 2.0", "W2 at 0"),
    ("1u + 1u", "W2 at 0"),
    ("object.m.transformMap(k, v, v)", "W3 at 9"),
    ("object.l.map(x, object.?a)", "W4 at 16"),
    ("[object.?a]", "W4 at 1"),
    ("quantity('1')", "W4 at 0"),
    ("authorizer.path('/x')", "W5 authorizer at 0"),
    ("cel.bind(x, 1, x)", "W5 cel.bind at 0"),
    ("url('a')", "W5 url at 0"),
    ("{?object.t: object.?a}", "W6 at 0"),
    ("string(object.i / 2).matches('a')", "W7 matches at 0"),
    ("object.t.matches('a**')", "W8 at 17"),
    ("object.t.matches('[a&&b]')", "W8 at 17"),
    (r"object.t.matches('\\pL')", "W8 at 17"),
    ("object.f{}", "P4 at 8"),
    ("object.?f()", "P4 at 9"),
    ("[1,,2]", "P4 at 3"),
    ("'abc", "P2 at 0"),
    ("99999999999999999999u", "P3 at 0"),
    ("has(a.?b)", "M3 at 4"),
    ("l.all(k, k, true)", "M2 at 9"),
]


# what API servers refuse by a kind that gatekeeper does not know, and is the error there
UNKNOWN_KINDS = [
    "[1, 2].all(x, x)", "[1, 2].exists(i, x, x)", "optional.of('a').optMap(e, e && true).hasValue()", "optional.of([1]).?a.hasValue()",
    "{'a': 1}[?1].hasValue()", "string([1])", "1 + 'a'",
]


def result_of(expression: str, variables: Any = None) -> Any:
    """The result of an expression over ROOTS and variables, a dict to their expressions."""
    meaning, scope = Meaning(ROOTS, {}), Scope()
    for name, text in (variables or {}).items():
        meaning.variables[name] = meaning.of(variable(name, text, scope))
    return meaning.of(taken(expression, scope))


def refusal_of(expression: str, part: str = "value") -> str:
    try:
        taken(expression, Scope(), part)
        return "none"
    except Refused as why:
        return why.text


class Values(unittest.TestCase):
    def test_values(self) -> None:
        for expression, due in VALUES:
            with self.subTest(expression):
                found = result_of(expression)
                self.assertEqual("error" if found is ERROR else json.dumps(found, ensure_ascii=False), due)


class Refusals(unittest.TestCase):
    def test_refusals(self) -> None:
        for expression, due in REFUSALS:
            with self.subTest(expression):
                self.assertEqual(refusal_of(expression), due)


class Kinds(unittest.TestCase):
    def test_kinds_that_are_not_known(self) -> None:
        for expression in UNKNOWN_KINDS:
            with self.subTest(expression):
                self.assertRegex(refusal_of(expression), "^Y2 at ")
                tree = taken(expression, Scope(knows_plain=False))
                self.assertIs(Meaning(ROOTS, {}).of(tree), ERROR)
        self.assertIs(Meaning(ROOTS, {}).of(taken("sets.contains([], []) != null", Scope(knows_plain=False))), True)


if __name__ == "__main__":
    unittest.main()
