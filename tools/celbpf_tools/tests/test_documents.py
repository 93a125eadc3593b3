"""Documents: JSON and YAML, and what is said of those that cannot be read."""

import tempfile
import unittest
from pathlib import Path
from unittest import mock

from .. import documents


class Files(unittest.TestCase):
    """Tests with a folder of their own."""

    def setUp(self) -> None:
        folder = tempfile.TemporaryDirectory()
        self.addCleanup(folder.cleanup)
        self.folder = Path(folder.name)

    def file(self, name: str, text: str) -> Path:
        path = self.folder / name
        path.write_text(text)
        return path

    def refused(self, path: Path) -> str:
        with self.assertRaises(documents.Unreadable) as raised:
            documents.one_in(path)
        return str(raised.exception).removeprefix(f"{self.folder}/")


class Documents(Files):
    def test_json(self) -> None:
        self.assertEqual(documents.one_in(self.file("a.json", '{"a": [1, "b"]}')), {"a": [1, "b"]})

    def test_place_of_a_json_fault(self) -> None:
        said = self.refused(self.file("a.json", '{\n  "a": 1,\n  b\n}'))
        self.assertEqual(said, "a.json: expecting property name enclosed in double quotes at line 3 column 3")

    def test_missing_file(self) -> None:
        self.assertEqual(self.refused(self.folder / "none.json"), "none.json: No such file or directory")

    def test_not_utf8(self) -> None:
        path = self.folder / "a.json"
        path.write_bytes(b'{"a": "\xe9"}')
        self.assertEqual(self.refused(path), "a.json: byte 7 is not UTF-8")

    def test_without_pyyaml(self) -> None:
        with mock.patch.object(documents, "yaml", None):
            self.assertIn("needs PyYAML", self.refused(self.file("a.yaml", "a: 1")))
            self.assertEqual(documents.one_in(self.file("a.json", "[1]")), [1])


@unittest.skipIf(documents.yaml_package() is None, "PyYAML is not installed")
class Yaml(Files):
    def test_texts_that_look_like_dates_and_times(self) -> None:
        path = self.file("a.yaml", "a: 2026-11-26\nb: 1:30\nc: 0x10\nd: 1.5\ne: true\n")
        self.assertEqual(documents.one_in(path), {"a": "2026-11-26", "b": "1:30", "c": 16, "d": 1.5, "e": True})

    def test_texts_and_bools_as_kubectl_reads_them(self) -> None:
        path = self.file("a.yaml", "a: [y, Y, n, N, yes, 'y', yy, nY]\nb: [=, ==]\nc:\n- =\n")
        bools = [True, True, False, False, True, "y", "yy", "nY"]
        self.assertEqual(documents.one_in(path), {"a": bools, "b": ["=", "=="], "c": ["="]})

    def test_place_of_a_yaml_fault(self) -> None:
        self.assertRegex(self.refused(self.file("a.yaml", "a: [1\nb: 2\n")), r"^a.yaml: .* at line 2 column 2$")

    def test_what_aliases_make_too_large(self) -> None:
        lines = ["a0: &a0 [1, 1]", *(f"a{n}: &a{n} [*a{n - 1}, *a{n - 1}]" for n in range(1, 60))]
        self.assertEqual(self.refused(self.file("a.yaml", "\n".join(lines))), "a.yaml: aliases make it larger than 5,000,000 values")
        self.assertEqual(self.refused(self.file("b.yaml", "a: &a [*a]\n")), "b.yaml: a value has itself as a part, by an alias")

    def test_what_json_does_not_have(self) -> None:
        for text, why in [("a: [!!timestamp 2026-11-26]\n", "a[0] is a date"), ("a: !!set {x}\n", "a is a set")]:
            with self.subTest(text):
                self.assertEqual(self.refused(self.file("a.yaml", text)), f"a.yaml: {why}, which JSON does not have")

    def test_a_repeated_key(self) -> None:
        path = self.file("a.yaml", "a: 1\nb:\n- {c: 1, d: 2}\n- c: 1\n  'c': 2\n")
        self.assertEqual(self.refused(path), "a.yaml: the key 'c' of line 4 is repeated at line 5 column 3")

    def test_a_merge_may_be_repeated_and_overridden(self) -> None:
        path = self.file("a.yaml", "a: &a {x: 1, w: 1}\nb: &b {<<: *a, <<: {z: 2}, x: 3}\nc: {<<: *b, x: 4}\n")
        self.assertEqual(documents.one_in(path)["c"], {"x": 4, "w": 1, "z": 2})

    def test_what_is_later_counts_if_a_merge_brings_it_too(self) -> None:
        path = self.file("a.yaml", "a: &a {x: 1}\nb: &b {x: 2, z: 2}\nc: {x: 5, <<: *a}\nd: {<<: [*a, *b]}\n")
        self.assertEqual(documents.one_in(path), {"a": {"x": 1}, "b": {"x": 2, "z": 2}, "c": {"x": 1}, "d": {"x": 1, "z": 2}})
        self.assertEqual(self.refused(self.file("b.yaml", "a: {<<: 5}\n")), "b.yaml: what `<<` brings is no map at line 1 column 9")

    def test_keys_are_texts(self) -> None:
        path = self.file("a.yaml", "a: &a {yes: a, 1: b, 1.5: c, 0x10: d, 2026-01-01: e, ~: f}\nb: {<<: *a, on: g}\n")
        keys = {"true": "a", "1": "b", "1.5": "c", "16": "d", "2026-01-01": "e", "null": "f"}
        self.assertEqual(documents.one_in(path), {"a": keys, "b": {**keys, "true": "g"}})

    def test_merges_that_are_repeated_do_not_grow(self) -> None:
        lines = ["a0: &a0 {x: 1}", *(f"a{n}: &a{n} {{<<: [*a{n - 1}, *a{n - 1}]}}" for n in range(1, 60))]
        self.assertEqual(documents.one_in(self.file("a.yaml", "\n".join(lines)))["a59"], {"x": 1})

    def test_numbers_as_kubectl_reads_them(self) -> None:
        """Each value is the one that `kubectl label --local -o json` printed."""
        for text, value in [
            ("010", 8), ("0o10", 8), ("0b11", 3), ("-0x10", -16), ("1_000", 1000), ("0x1F_F", 511), ("08", 8), ("1e3", 1000), ("+.5", 0.5),
            ("1_0.5", 10.5), (".1_0", 0.1), ("1.5_", 1.5), ("1e400", "1e400"), ("-7e12345", "-7e12345"), ("1.7976931348623157e309",) * 2,
            ("0xFFFFFFFFFFFFFFFFF",) * 2, ("0xFFFFFFFFFFFFFFFF", 2**64 - 1), ("0b102", "0b102"), ("_1", "_1"), ("1e", "1e"), (".", "."),
            ("!!binary aGk=", "hi"), ("<<", "<<"), ("=", "="), ("1:30", "1:30"), ("!!str 12", "12"), ("!!float 3", 3),
            ("!!omap [b: 1]", [{"b": 1}]),
        ]:
            with self.subTest(text):
                self.assertEqual(documents.one_in(self.file("a.yaml", f"a: {text}\n")), {"a": value})

    def test_a_map_that_aliases_repeat_is_read_once(self) -> None:
        lines = ["a0: &a0 {x: 1}", *(f"a{n}: &a{n} [*a{n - 1}, *a{n - 1}]" for n in range(1, 60))]
        node = documents.yaml_package().compose("\n".join(lines), documents.loader())
        documents.refuse_repeated(node)

    def test_a_policy_beside_its_bindings(self) -> None:
        policy, binding = "kind: ValidatingAdmissionPolicy\n", "kind: ValidatingAdmissionPolicyBinding\n"
        for text in [policy, f"{policy}---\n{binding}", f"{binding}---\n{policy}---\n{binding}"]:
            with self.subTest(text):
                self.assertEqual(documents.policy_in(self.file("a.yaml", text)), {"kind": "ValidatingAdmissionPolicy"})
        self.assertEqual(documents.policy_in(self.file("a.yaml", "a: 1\n")), {"a": 1})
        for text in [f"{policy}---\n{policy}", f"{policy}---\na: 1\n", f"{binding}---\n{binding}"]:
            with self.subTest(text), self.assertRaisesRegex(documents.Unreadable, "2 documents, and one is expected"):
                documents.policy_in(self.file("a.yaml", text))

    def test_several_documents(self) -> None:
        path = self.file("a.yaml", "a: 1\n---\nb: 2\n---\n")
        self.assertEqual(documents.all_in(path), [{"a": 1}, {"b": 2}])
        self.assertEqual(self.refused(path), "a.yaml: 2 documents, and one is expected")
        self.assertEqual(self.refused(self.file("b.yaml", "# nothing\n---\n")), "b.yaml: no document is in it")
