"""The wide language: the functions of texts, the typed values, lists, optionals and variables."""

import json
import sys
import unittest
from typing import Any

from ..entry import DEEPEST
from ..evaluator.refused import Refused
from ..evaluator.values import ERROR
from ..wide.expression import Scope, taken, variable
from .test_wide import refusal_of, result_of

# a name, and expressions with their values as JSON, or `error`
ROWS: dict[str, list[tuple[str, str]]] = {
    "ints and bools of texts": [
        ("int('+12')", "12"), ("int('1_0')", "error"), ("int('9223372036854775808')", "error"),
        ("int('')", "error"), ("bool('t')", "true"), ("bool('FALSE')", "false"), ("bool('yes')", "error"),
        ("bool(object.spec.paused)", "false"), ("int(object.spec.paused)", "error"),
    ],
    "quantities": [
        ("isQuantity('5.')", "true"), ("isQuantity('.5')", "true"), ("isQuantity('-.')", "true"),
        ("isQuantity('')", "false"), ("isQuantity('1kk')", "false"), ("isQuantity('1e3')", "true"),
        ("quantity('1Gi').compareTo(quantity('1073741824'))", "0"),
        ("quantity('0.0000000001') == quantity('1n')", "true"),
        ("quantity('16Ei') == quantity('9223372036854775807')", "true"),
        ("quantity('1.0').isInteger()", "false"), ("quantity('0.5Gi').isInteger()", "false"),
        ("quantity('1e3').asInteger()", "1000"), ("quantity('1Gi').asInteger()", "1073741824"),
        ("quantity('1000m').asInteger()", "error"), ("sign(quantity('-1m'))", "-1"),
        ("quantity('1').add(2) == quantity('3')", "true"),
        ("quantity('1').sub(quantity('2k')) < quantity('0')", "true"),
    ],
    "durations": [
        ("duration('-1m30s').getSeconds()", "-90"), ("duration('-0.9s').getSeconds()", "0"),
        ("duration('1h30')", "W4 at 0"), ("duration('1h30').getHours()", "error"),
        ("duration('.5h').getMinutes()", "30"), ("duration('0').getHours()", "0"),
        ("duration('2562048h').getHours()", "error"), ("duration('1s') + duration('1ms') > duration('1s')", "true"),
        ("-duration('1h') < duration('0')", "true"),
        # 2^63 nanoseconds
        ("duration('2562047h47m16.854775808s').getHours()", "error"),
        ("duration('-2562047h47m16.854775808s').getHours()", "-2562047"),
    ],
    "timestamps": [
        # the first day of March 2026 is a Sunday
        ("timestamp('2026-03-01T10:20:30.5Z').getDayOfWeek()", "0"),
        ("timestamp('2026-03-01T00:00:00Z').getMonth()", "2"),
        ("timestamp('2026-03-01T00:00:00Z').getDayOfYear()", "59"),
        ("timestamp('2026-03-01T00:00:00Z').getDate()", "1"),
        ("timestamp('2026-03-01T00:00:00Z').getDayOfMonth()", "0"),
        ("timestamp('2026-03-01T00:30:00+01:00').getHours()", "23"),
        ("timestamp('2026-03-01T10:20:30.5Z').getMilliseconds()", "500"),
        ("timestamp('2026-02-29T00:00:00Z') == timestamp('2026-02-29T00:00:00Z')", "error"),
        ("timestamp('2026-03-01t00:00:00Z').getHours()", "error"),
        ("timestamp('0001-01-01T00:00:00+00:01').getHours()", "error"),
    ],
    "versions": [
        ("isSemver('01.2.3')", "false"), ("isSemver('01.2.3', true)", "true"), ("isSemver('v1.2', true)", "true"),
        ("isSemver('v1.2-a', true)", "false"), ("semver('1.0.0+a') == semver('1.0.0+b')", "true"),
        ("semver('1.0.0-alpha') < semver('1.0.0')", "true"), ("semver('1.20.3').minor()", "20"),
        ("semver('1.0.0-1').isLessThan(semver('1.0.0-a'))", "true"),
    ],
    "addresses": [
        ("ip('2001:DB8:0:0:0:0:0:1') == ip('2001:db8::1')", "true"), ("isIP('10.1.2.03')", "false"),
        ("isIP('fe80::1%eth0')", "false"), ("ip('127.3.2.1').isLoopback()", "true"),
        ("ip('::').isUnspecified()", "true"),
        ("ip('::1').family()", "6"), ("cidr('10.0.0.7/8').prefixLength()", "8"), ("isCIDR('10.0.0.0/08')", "false"),
        ("cidr('10.0.0.7/8').containsIP('10.255.0.1')", "true"), ("cidr('0.0.0.0/0').containsIP('::1')", "false"),
        ("cidr('0.0.0.0/0').containsIP('a')", "error"),
    ],
    "named formats": [
        ("format.labelValue().validate('').hasValue()", "false"),
        ("format.dns1123Label().validate('Web').hasValue()", "true"),
        ("format.dns1123Subdomain().validate('a.b-c').hasValue()", "false"),
        ("format.dns1035Label().validate('1a').hasValue()", "true"),
        ("format.dns1123Label().validate(object.none).hasValue()", "error"),
    ],
    "texts": [
        (r"'\u2000 a\u001c\u0085'.trim()", r'"a\u001c"'), ("'abc'.charAt(3)", '""'), ("'abc'.charAt(4)", "error"),
        ("'aöb'.substring(1, 2)", '"ö"'), ("'abc'.substring(2, 1)", "error"), ("'abc'.indexOf('', 5)", "3"),
        ("'abc'.indexOf('c', 3)", "-1"), ("'abc'.indexOf('a', -1)", "error"), ("'abab'.lastIndexOf('ab', 1)", "0"),
        ("'abab'.lastIndexOf('', 2)", "2"), ("'''a\nb'''", r'"a\nb"'), ("dyn(['a']).indexOf('a', 0)", "error"),
        ("'abab'.lastIndexOf('')", "4"), ("'abab'.lastIndexOf('b', 9)", "-1"), ("''.split(',')", '[""]'),
        ("'a,b,c'.split(',', 2)", '["a", "b,c"]'), ("'aöb'.split('')", '["a", "ö", "b"]'),
        ("'a,b'.split(',', 0)", "[]"),
        ("'ab'.replace('', '-')", '"-a-b-"'), ("'aaa'.replace('a', 'b', 2)", '"bba"'),
        ("'aaa'.replace('a', 'b', -1)", '"bbb"'),
        ("'100%%'.format([])", '"100%"'), ("'%s %s'.format([null, true])", '"null true"'),
        ("'%d'.format([object.spec.image])", "error"),
    ],
    "patterns": [
        (r"'é'.matches('\\b')", "false"), (r"'e'.matches('\\b')", "true"),
        ("'a1b22'.find('[0-9]+')", '"1"'), ("'ab'.find('[0-9]+')", '""'), ("'axb'.findAll('x*')", '["", "x", ""]'),
        ("'aaa'.findAll('a', 2)", '["a", "a"]'), (r"'\u212a'.matches('(?i)^k$')", "true"),
        (r"'\u0131'.matches('(?i)^i$')", "false"),
        (r"'\u0663'.matches('^\\d$')", "false"), (r"'a\n'.matches('a$')", "false"), (r"'\n'.matches('.')", "false"),
        (r"'\n'.matches('(?s).')", "true"), ("'ab-c'.matches('^[[:alpha:]-]+$')", "true"),
        ("'b'.matches('^(a|)b$')", "true"),
    ],
    "lists": [
        ("[3, 1, 2].max()", "3"), ("['b', 'a'].min()", '"a"'), ("[1, 'a'].min()", "error"), ("[].max()", "error"),
        ("[true, false].isSorted()", "false"), ("[].isSorted()", "true"), ("object.spec.none.isSorted()", "error"),
        ("[1, 2].sum()", "3"), ("[1, 'a'].sum()", "error"), ("[1, 1, 1, 1, 1, 1, 1, 1, 1].sum()", "error"),
        ("['', '', '', '', '', '', '', '', ''].join('a')", "error"),
        ("['', '', '', '', '', '', '', ''].join('')", '""'),
        ("[].sum()", "0"), ("[].join(',')", '""'), ("[1].join(',')", "error"), ("[1, 2, 3].reverse()", "[3, 2, 1]"),
        ("[1, 2, 3].slice(1, 3)", "[2, 3]"), ("[1].slice(1, 0)", "error"), ("[1, 2, 1].lastIndexOf(1)", "2"),
        ("[1].indexOf('a')", "-1"), ("[1, 2].last().value()", "2"), ("[].first().hasValue()", "false"),
        ("sets.contains([1, 2], [2, 2])", "true"), ("sets.intersects([1], [])", "false"),
        ("sets.equivalent([1, 1], [1])", "true"),
    ],
    "macros of two names": [
        ("{'b': 1, 'a': 2}.transformList(k, v, k + string(v))", '["a2", "b1"]'),
        ("[5, 6].transformList(i, v, i > 0, v + i)", "[7]"), ("[1, 2].exists_one(i, v, i == v)", "false"),
        ("[0, 1].existsOne(i, v, v == 1)", "true"), ("object.spec.image.all(k, v, true)", "error"),
        ("{'b': 0, 'a': 1}.exists(k, v, 1 / v == 1)", "true"),
    ],
    "optionals": [
        ("{'a': 1, ?'a': optional.none()}", '{"a": 1}'), ("{'a': 1, ?'a': optional.of(2)}", "error"),
        ("{?'a': object.spec.args.?x}", "error"), ("optional.of(null).hasValue()", "true"),
        ("optional.ofNonZeroValue(object.none).hasValue()", "error"), ("optional.of(1) == optional.of('a')", "false"),
        ("object.spec.?note.optMap(n, n.x).hasValue()", "error"),
        ("optional.none().optMap(n, 1 / 0).hasValue()", "false"),
        ("has(object.spec.?none.x)", "false"), ("has(object.spec.?args.x)", "error"),
        ("has(object.spec.?sel.x)", "false"),
        ("object.spec.?none.or(object.spec.?replicas).orValue(1)", "3"),
        ("(true ? optional.of(1) : optional.none()).value()", "1"),
        ("object.?spec['replicas'].value()", "3"), ("object.spec.?note.a.hasValue()", "false"),
    ],
    "names": [
        ("[5].map(object, .object.spec.replicas + object)", "[8]"), ("[1].map(variables, variables)", "[1]"),
        ("[{'v': 1}].map(variables, variables.v)", "[1]"), ("[1].map(x, [2].map(x, x))", "[[2]]"),
    ],
    "kinds of values": [
        ("type(object.spec.note) == null_type", "true"), ("type(object.spec.args) != list", "false"),
        ("type(object.none) == int", "error"), ("18446744073709551615u > 1", "true"), ("!!object.spec.replicas", "3"),
    ],
}
# variables, an expression and its value
WITH_VARIABLES: list[tuple[dict[str, Any], str, str]] = [
    ({"q": "quantity(object.spec.cpu)"}, "variables.q.isLessThan(quantity('1'))", "true"),
    ({"o": "object.spec.?none"}, "variables.o.orValue(0)", "0"),
    ({"d": "duration('1h')", "e": "variables.d + variables.d"}, "variables.e.getHours()", "2"),
    ({"v": "object.none"}, "variables.v in []", "false"),
]
# variables, an expression and its refusal
REFUSED_WITH_VARIABLES: list[tuple[dict[str, Any], str, str]] = [
    ({"q": "quantity('1')"}, "sign(variables.q)", "W9 at 5"),
    ({"q": "quantity('1')"}, "variables.q.isInteger()", "W9 at 0"),
    ({"t": "timestamp('2026-03-01T00:00:00Z')"}, "variables.t.getHours()", "W9 at 0"),
    ({"q": "quantity('1')"}, "variables.q", "W4 at 0"),
    ({"x": "object.l.size()"}, "string(variables.x / 2).matches('a')", "W7 matches at 0"),
    ({}, "variables.x", "Y3 at 0"),
    ({}, "[object.a % 2].exists(i, v, i == v)", "error"),
    ({}, "[object.a % 2].exists(i, v, v == 1)", "error"),
    ({}, "[object.a % 2].indexOf(1)", "error"),
    ({}, "[object.a].indexOf(object.a % 2)", "error"),
    ({}, "bool(string(object.a % 2))", "error"),
    ({}, "[1].all(int, type(1) == int)", "W4 at 13"),
]


def shown(expression: str, variables: dict[str, Any]) -> str:
    """The result of an expression as JSON, or `error`, or its refusal."""
    try:
        found = result_of(expression, variables)
    except Refused as why:
        return why.text
    return "error" if found is ERROR else json.dumps(found, ensure_ascii="\\u" in expression)


class Functions(unittest.TestCase):
    def test_functions(self) -> None:
        for name, rows in ROWS.items():
            for expression, due in rows:
                with self.subTest(f"{name}: {expression}"):
                    self.assertEqual(shown(expression, {}), due)

    def test_variables(self) -> None:
        for variables, expression, due in [*WITH_VARIABLES, *REFUSED_WITH_VARIABLES]:
            with self.subTest(expression):
                self.assertEqual(shown(expression, variables), due)


# an expression, the part that it is, and its refusal
PARTS = [
    ("1 + 1", "condition", "K7 at 0"), ("object.a", "condition", "none"), ("1", "message", "K9 at 0"),
    ("object.a", "annotation", "K9 at 0"), ("null", "annotation", "none"),
    ("has(object.a) ? 'x' : null", "annotation", "Y2 at 0"),
    ("object.?a", "condition", "W4 at 0"),
]
# an expression, and its refusal, or `none`
REFUSALS = [
    ("", "P4 at 0"), ("`", "P1 at 0"), ("object.`a$`", "P1 at 7"), ("object.`a`()", "P4 at 10"), ("0x", "P4 at 1"),
    ("1.", "P4 at 2"), ("-1.5", "W2 at 1"), ("'é' + b'a'", "W1 at 7"), ("'''a", "P2 at 0"), ("'a\nb'", "P2 at 0"),
    ("1 // a\r + 'x'", "none"), ("object ? .5 : 1", "W2 at 9"), ("18446744073709551616u == 1", "P3 at 0"),
    ("-1u < 2", "W2 at 1"), ("1u == 1 && 2 >= 2u", "none"), ("1 in [1u]", "W2 at 6"), ("!-1", "Y2 at 0"),
    ("!-object.a", "P4 at 1"),
    ("(" * 101, "P5 at 100"), ("[" + "?" * 2, "P4 at 2"), ("+ ".join(["1 "] * 2049), "P6 at 8192"),
    ("has()", "M1 at 0"), ("has(object)", "M3 at 4"), ("has(object['a'])", "M3 at 4"),
    ("[1].all(.x, true)", "M2 at 8"),
    ("[1].all(1, true)", "M2 at 8"), ("[1].all(x)", "W5 all at 4"), ("[1].existsOne(x, x == 1)", "W5 existsOne at 4"),
    ("foo", "W5 foo at 0"), ("foo(1)", "W5 foo at 0"), ("object.a.foo()", "W5 foo at 9"), (".x", "W5 x at 0"),
    ("[1].map(x, .x)", "W5 x at 11"), ("math.greatest(1, 2)", "W5 math.greatest at 0"),
    ("object.l.sort()", "W5 sort at 9"),
    ("'%x'.format([1])", "W5 format at 5"), ("type(object.a) == type(object.b)", "W4 at 0"),
    ("object.?a == 1", "W4 at 0"), ("object.?a.startsWith('a')", "W4 at 0"), ("object.l[object.?a]", "W4 at 9"),
    ("quantity('1') == duration('1s')", "W4 at 0"), ("ip('::') < ip('::1')", "W4 at 0"),
    ("true ? 1 : null", "Y2 at 0"), ("{1: 2}", "Y2 at 0"), ("null < null", "Y2 at 0"),
    ("object.m[has(object.a)]", "Y2 at 0"),
    ("[1].map(x, x + 'a')", "Y2 at 11"), ("object.a.hasValue()", "Y2 at 0"),
    ("{?'a': object.?a, ?'b': object.?a, ?'c': object.?a, ?'d': object.?a}", "W6 at 0"),
    ("object.t.matches('(?i)ö')", "W8 at 17"), ("object.t.matches('(a*)*')", "none"),
    ("object.t.find('(a*)*')", "W8 at 14"),
    ("object.t.matches('a{1001}')", "W8 at 17"), ("object.t.matches('(a{40}){40}')", "W8 at 17"),
    ("object.t.matches('[]a]')", "W8 at 17"), ("object.t.matches('^*')", "W8 at 17"),
    ("object.t.matches('a{')", "W8 at 17"),
    ("object" + ".a" * 511, "none"), ("object" + ".a" * 512, "W10 at 0"), ("object" + "[0]" * 512, "W10 at 0"),
    ("0" + " + 0" * 511, "none"), ("0" + " + 0" * 512, "W10 at 0"), ("[true" + " || true" * 511 + "]", "W10 at 0"),
    ("nothing" + ".a" * 512, "W10 at 0"), ("has(object)" + ".a" * 512, "M3 at 4"), ("object" + ".a" * 512 + ".", "P4 at 1031"),
    ("[" * 99 + "object" + ".a" * 412 + "]" * 99, "none"), ("[" * 100 + "object" + ".a" * 412 + "]" * 100, "W10 at 0"),
]


class Refusals(unittest.TestCase):
    def setUp(self) -> None:
        self.addCleanup(sys.setrecursionlimit, sys.getrecursionlimit())
        sys.setrecursionlimit(DEEPEST)

    def test_refusals(self) -> None:
        for expression, due in REFUSALS:
            with self.subTest(expression[:40]):
                self.assertEqual(refusal_of(expression), due)

    def test_parts(self) -> None:
        for expression, part, due in PARTS:
            with self.subTest(f"{part}: {expression}"):
                self.assertEqual(refusal_of(expression, part), due)

    def test_variable_of_a_kind_of_values(self) -> None:
        with self.assertRaisesRegex(Refused, "W4 at 0"):
            variable("v", "type(object.a)", Scope())
        self.assertTrue(taken("1", Scope()))


if __name__ == "__main__":
    unittest.main()
