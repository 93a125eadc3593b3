"""Numbers and quantities, as kubectl sends them and an API server stores them."""

import math
import unittest
from typing import Any

from ..vapctl.numbers import NotJson, sent, undecided_numbers
from ..vapctl.quantities import quantity_of, write_quantities
from ..vapctl.quantity_texts import stored

# a number, and the text that an API server stores: what ParseQuantity of Kubernetes 1.20.2 gives, as Debian 12 has its source
QUANTITIES = [
    (0, "0"), (1, "1"), (0.5, "500m"), (0.1, "100m"), (2.5, "2500m"), (1000, "1k"), (1024, "1024"), (1e9, "1G"), (1.5e9, "1500M"),
    (128974848, "128974848"), (0.001, "1m"), (1e-9, "1e-9"), (1e-10, "1e-9"), (0.0001, "100u"), (-0.25, "-250m"), (12e6, "12M"),
    (2**63, "9223372036854775808"), (1e21, "1e+21"), (1.234, "1.234"), (1e-7, "100e-9"), (1e22, "10e21"),
]
# texts, likewise. One that is canonical enough is kept as it is
TEXTS = [
    ("1.5", "1500m"), ("1.5Gi", "1536Mi"), ("1024Mi", "1Gi"), ("1000m", "1"), ("1.0", "1"), ("0.5Gi", "512Mi"),
    ("0.1Ki", "102400m"), ("1.1Ki", "1126400m"), ("128974848", "128974848"), ("129e6", "129e6"), ("129M", "129M"),
    ("123Mi", "123Mi"), ("+1", "+1"), ("+5", "+5"), ("-0.5", "-500m"), ("1E3", "1E3"), ("1E", "1E"), ("12e-3", "12e-3"),
    ("0Gi", "0"), ("1e-10", "1e-9"), ("1n", "1n"), (" 1 ", "1"), ("10000000000000000000000", "10"), ("1e999", "1e999"),
    ("1500k", "1500k"), ("1000k", "1M"), ("1.500", "1.500"), ("0.500", "500m"), ("007", "007"), ("+0", "0"), ("-0.0", "0"),
    ("5.", "5."), ("5.Gi", "5.Gi"), (".5", "500m"), ("12.345", "12.345"), ("1e4", "10e3"), ("10e3", "10e3"), ("1000e3", "1e6"),
    ("8Ki", "8Ki"), ("9Ki", "9Ki"), ("2048Ki", "2Mi"), ("1023Ki", "1023Ki"), ("1000E", "1"), ("9Ei", "9223372036854775807"),
    ("8Ei", "9223372036854775807"), ("7.9Ei", "9108079886394091110400m"), ("-1.5Ki", "-1536"),
    ("123456789012345678", "123456789012345678"), ("1234567890123456789", "1234567890123456789"), ("0.123456789", "123456789n"),
    ("0.1234567891", "123456790n"), ("1.000", "1"), ("2000.000", "2k"), ("+1.5Gi", "1536Mi"), ("1E-3", "1E-3"),
]
# of a list of resources, after SetDefaults_ResourceList
RESOURCES = [
    ("0.0001", "1m"), ("1u", "1m"), ("1m", "1m"), ("0.5", "500m"), ("1.2345", "1235m"), ("1.234", "1.234"), ("1e-4", "1e-3"),
    ("-0.0001", "-1m"), ("1Mi", "1Mi"), ("0.0001Ki", "103m"), ("0.00001Mi", "10486m"), ("1500000n", "2m"), ("1n", "1m"),
    ("0", "0"), ("0.1Gi", "107374182400m"), ("5.5555555Ki", "5688889m"), ("1234567890123456789.12345", "1234567890123456789124m"),
    ("+5", "+5"),
]
# what no quantity is
OTHERS = ["", ".", "a", "1 Gi", "1_0", "\u0663", "1e", "1KI", "1mi", "0x10", "--1", "1e1.5", "Infinity", "nan", "1" * 5000]


class Quantities(unittest.TestCase):
    def test_stored_texts(self) -> None:
        for number, text in QUANTITIES:
            self.assertEqual(quantity_of(number), text, number)
        for given, text in TEXTS:
            self.assertEqual(stored(given), text, given)
            self.assertEqual(stored(text), text)
        for given in OTHERS:
            self.assertEqual(stored(given), given)

    def test_stored_texts_of_resources(self) -> None:
        for given, text in RESOURCES:
            self.assertEqual(stored(given, True), text, given)
        pod: dict[str, Any] = {"apiVersion": "v1", "kind": "Pod", "spec": {
            "overhead": {"cpu": 0.0001}, "volumes": [{"emptyDir": {"sizeLimit": "0.0001"}}]}}
        write_quantities(pod)
        self.assertEqual(pod["spec"], {"overhead": {"cpu": "1m"}, "volumes": [{"emptyDir": {"sizeLimit": "100u"}}]})

    def test_paths_of_built_in_kinds(self) -> None:
        container: dict[str, Any] = {"name": "c", "resources": {"limits": {"cpu": 0.5, "memory": "1024Mi"}, "requests": {"cpu": 1}}}
        pod: dict[str, Any] = {"apiVersion": "v1", "kind": "Pod", "spec": {"containers": [container, "no map"], "overhead": {"cpu": 0.25}}}
        write_quantities(pod)
        self.assertEqual(container["resources"], {"limits": {"cpu": "500m", "memory": "1Gi"}, "requests": {"cpu": "1"}})
        self.assertEqual(pod["spec"]["overhead"], {"cpu": "250m"})
        job = {"apiVersion": "batch/v1", "kind": "CronJob", "spec": {"jobTemplate": {"spec": {"template": {"spec": {
            "volumes": [{"emptyDir": {"sizeLimit": 1e9}}]}}}}}}
        write_quantities(job)
        self.assertIn("'sizeLimit': '1G'", str(job))
        quota: dict[str, Any] = {"apiVersion": "v1", "kind": "ResourceQuota", "spec": {"hard": {"pods": 10, "cpu": True, "memory": None}}}
        write_quantities(quota)
        self.assertEqual(quota["spec"]["hard"], {"pods": "10", "cpu": True, "memory": None})

    def test_other_kinds_and_forms_stay(self) -> None:
        things: list[dict[str, Any]] = [
            {"apiVersion": "x.io/v1", "kind": "Pod", "spec": {"overhead": {"cpu": 0.5}}},
            {"apiVersion": "v1", "kind": "Pod", "spec": {"overhead": 0.5, "containers": {"a": 1}}},
            {"apiVersion": "v1", "kind": "Pod", "spec": None},
            {"apiVersion": "v1", "kind": "Pod", "spec": {"overhead": {"cpu": math.inf, "memory": math.nan, "x": 10**400}}},
        ]
        for thing in things:
            before = str(thing)
            write_quantities(thing)
            self.assertEqual(str(thing), before)


class Numbers(unittest.TestCase):
    def test_as_kubectl_sends_them(self) -> None:
        value = {"a": 3.0, "b": [1e3, -0.0, 0.5], True: {None: 1, 2: 3, 1.5: 4}}
        self.assertEqual(sent(value), {"a": 3, "b": [1000, 0, 0.5], "true": {"null": 1, "2": 3, "1.5": 4}})
        self.assertIsInstance(sent(3.0), int)

    def test_what_json_does_not_have(self) -> None:
        for value, said in (({"a": [b"x"]}, "a[0] is a bytes"), ({"a b": {1, 2}}, "['a b'] is a set"), ({b"k": 1}, "a key is a bytes")):
            with self.assertRaisesRegex(NotJson, said.replace("[", r"\[").replace("]", r"\]")):
                sent(value)

    def test_numbers_that_are_not_decided(self) -> None:
        value = {"spec": {"ratio": 0.5, "list": [1, {"a.b": 2**63}], "ok": [True, None, -(2**63), 2**63 - 1, "0.5"]}, "big": 10**5000}
        found = list(undecided_numbers(value))
        self.assertEqual(found[:2], [("spec.ratio", "0.5"), ("spec.list[1]['a.b']", "9223372036854775808")])
        self.assertEqual(found[2], ("big", "an int of more than 4,300 digits"))
        self.assertEqual(len(found), 3)
