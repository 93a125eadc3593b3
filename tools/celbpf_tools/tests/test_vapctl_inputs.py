"""Inputs: files, folders and standard input as objects with their lines."""

import io
import os
import sys
import unittest
from pathlib import Path
from typing import Any
from unittest import mock

from .. import documents
from ..vapctl.inputs import Inputs
from .test_documents import Files

LIST = """{
  "apiVersion": "v1",
  "items": [
    {"apiVersion": "v1", "kind": "ConfigMap", "metadata": {"name": "a"}},

    {
      "apiVersion": "v1", "kind": "ConfigMap", "metadata": {"name": "b"}}
  ],
  "kind": "List"
}
{"apiVersion": "v1", "kind": "Secret", "metadata": {"generateName": "c-"}}
"""
YAML = """# a comment
apiVersion: v1
kind: ConfigMap
metadata: {name: a, namespace: dev}
---
---
apiVersion: v1
kind: ConfigMapList
items:
- metadata: {name: b}
- metadata:
    name: c
---
kind: List
apiVersion: v1
items:
- {apiVersion: v1, kind: List, items: [{apiVersion: v1, kind: Node, metadata: {name: d}}]}
"""
OBJECT = '{"apiVersion": "v1", "kind": "Node", "metadata": {"name": "%s"}}\n'


class Read(Files):
    """Tests that read inputs."""

    def read(self, *words: object) -> tuple[Any, ...]:
        """The objects with their places, and the troubles."""
        inputs = Inputs()
        things = inputs.things(map(str, words))
        return [f"{self.short(one.place)} {one.title}" for one in things], list(map(self.short, inputs.troubles))

    def short(self, told: object) -> str:
        return str(told).replace(f"{self.folder}/", "")

    def trouble(self, name: str, text: str) -> str:
        """The one trouble with a file, which has no object."""
        things, troubles = self.read(self.file(name, text))
        self.assertEqual(things, [])
        self.assertEqual(len(troubles), 1, troubles)
        return str(troubles[0])


class Json(Read):
    def test_lists_and_several_documents(self) -> None:
        found = self.read(self.file("a.json", LIST))
        self.assertEqual(found, (["a.json:4 ConfigMap a", "a.json:6 ConfigMap b", "a.json:11 Secret c-*"], []))

    def test_faults(self) -> None:
        for text, told in (
            ('{"a": 1,}', "a.json:1: expecting property name enclosed in double quotes at column 9"),
            ('{\n"a" 1}', "a.json:2: expecting ':' delimiter at column 5"),
            ('{"items": [1 2]}', "a.json:1: expecting ',' delimiter at column 14"),
            ('{"a": NaN}', "a.json: NaN is no JSON"),
            ("[" * 100_000, "a.json: it is nested too deep"),
            ('{"a": ' + "1" * 5000 + "}", "a.json: a number has more than 4,300 digits"),
            ("{}", "a.json:1: the object has no apiVersion"),
            ("[1]", "a.json:1: it is not an object"),
            ('{"apiVersion": 1}', "a.json:1: the object has no apiVersion"),
            ('{"apiVersion": "v1", "kind": "List", "items": [{"kind": 1}]}', "a.json:1: the object has no apiVersion"),
        ):
            self.assertEqual(self.trouble("a.json", text), told)

    def test_lists_that_are_none(self) -> None:
        one = '{"apiVersion": "v1", "kind": "%s", "items": %s}'
        self.assertEqual(self.read(self.file("a.json", one % ("ConfigMap", "[1]")))[0], ["a.json:1 ConfigMap"])
        self.assertEqual(self.read(self.file("a.json", one % ("List", "{}")))[0], ["a.json:1 List"])
        self.assertEqual(self.read(self.file("a.json", one % ("List", "[]"))), ([], []))
        self.assertEqual(self.read(self.file("a.json", one % ("List", "null"))), ([], []))


@unittest.skipIf(documents.yaml_package() is None, "PyYAML is not installed")
class Yaml(Read):
    def test_documents_and_lists(self) -> None:
        wanted = ["a.yaml:2 ConfigMap dev/a", "a.yaml:10 ConfigMap b", "a.yaml:11 ConfigMap c", "a.yaml:17 Node d"]
        self.assertEqual(self.read(self.file("a.yaml", YAML)), (wanted, []))

    def test_json_in_a_file_of_another_name(self) -> None:
        self.assertEqual(self.read(self.file("a.yaml", LIST))[0][2], "a.yaml:11 Secret c-*")
        self.assertEqual(self.read(self.file("a", OBJECT % "x"))[0], ["a:1 Node x"])
        flow = '{apiVersion: v1, kind: Node, metadata: {name: "a"}}\n---\n{"apiVersion": "v1", "kind": "Node", "metadata": {}}\n'
        self.assertEqual(self.read(self.file("b.yaml", flow)), (["b.yaml:1 Node a", "b.yaml:3 Node"], []))

    def test_an_equals_sign_and_single_letters(self) -> None:
        inputs = Inputs()
        (thing,) = inputs.things([str(self.file("a.yaml", "apiVersion: v1\nkind: Node\nenum:\n- =\n- y\n- N\ny: 1\n"))])
        self.assertEqual((inputs.troubles, thing.value["enum"], thing.value["true"]), ([], ["=", True, False], 1))

    def test_what_is_before_a_fault_is_read(self) -> None:
        things, troubles = self.read(self.file("a.yaml", "apiVersion: v1\nkind: Node\n---\na: [\n"))
        self.assertEqual(things, ["a.yaml:1 Node"])
        self.assertEqual(len(troubles), 1)

    def test_faults(self) -> None:
        for text, told in (
            ("a: [1\nb: 2\n", r"a.yaml:2: .* at column 2"),
            ("{{ template }}: a\n", "a.yaml:1: a key is a list or a map at column .; put .* into quotes; if it is a template of a chart, give what `helm template` prints"),
            ("{{a: 1}: a}\n", "a.yaml:1: a key is a list or a map at column .; put .* into quotes"),
            ("just a text\n", "a.yaml:1: it is not an object"),
            ("a: &a [*a]\n", "a.yaml: a value has itself as a part, by an alias"),
            ("a: !!python/object:os.system x\n", "a.yaml:1: a text begins with `!`, .* `!!python/object:os.system` at column 4; put it into quotes"),
            ("a: " + "[" * 1000, "a.yaml:1: it is nested too deep at column 30[0-9]"),
            ("- " * 1000, "a.yaml:1: it is nested too deep at column .*"),
            ("apiVersion: v1\nkind: Node\na: !!timestamp 2026-01-01\n", "a.yaml:1: a is a date, which JSON does not have"),
            ("apiVersion: v1\nkind: Node\na: !!set {x, y}\n", "a.yaml:1: a is a set, which JSON does not have"),
            ("a: \x07\n", "a.yaml: .*"),
        ):
            self.assertRegex(self.trouble("a.yaml", text), f"^{told}$")

    def test_aliases_that_grow(self) -> None:
        lines = ["a0: &a0 [1, 1]"] + [f"a{one}: &a{one} [*a{one - 1}, *a{one - 1}]" for one in range(1, 60)]
        self.assertRegex(self.trouble("a.yaml", "\n".join(lines)), "aliases make it larger than 5,000,000 values")
        lines = ["a0: &a0 [1]"] + [f"a{one}: &a{one} [*a{one - 1}]" for one in range(1, 5000)]
        self.assertRegex(self.trouble("a.yaml", "\n".join(lines)), "aliases nest it too deep")
        shared = "apiVersion: v1\nkind: Node\nmetadata: &m {name: a}\nb: [*m, *m]\n"
        self.assertEqual(self.read(self.file("b.yaml", shared))[0], ["b.yaml:1 Node a"])

    def test_without_pyyaml(self) -> None:
        with mock.patch.object(documents, "yaml", None):
            self.assertIn("YAML needs PyYAML", self.trouble("a.yaml", "a: 1"))
            self.assertEqual(self.read(self.file("a.yaml", OBJECT % "x"))[0], ["a.yaml:1 Node x"])


class FilesAndFolders(Read):
    def test_folders(self) -> None:
        for name in ("b.json", "a.yml", "sub/c.yaml", "sub/.hidden.json", ".git/d.json", "sub/e.txt"):
            path = self.folder / name
            path.parent.mkdir(exist_ok=True)
            path.write_text(OBJECT % name)
        self.file("values.json", '{"replicas": 3}')
        self.file("review.json", '{"apiVersion": "admission.k8s.io/v1", "kind": "AdmissionReview", "request": {}}')
        self.assertEqual(self.read(self.folder)[0], ["a.yml:1 Node a.yml", "b.json:1 Node b.json", "sub/c.yaml:1 Node sub/c.yaml"])
        self.assertEqual(self.read(self.folder / "values.json")[1], ["values.json:1: the object has no apiVersion"])

    def test_files_that_cannot_be_read(self) -> None:
        (self.folder / "empty").mkdir()
        latin = self.folder / "latin.json"
        latin.write_bytes(b'{"a": "\xe9"}')
        self.assertEqual(self.read("none.json")[1], ["none.json: No such file or directory"])
        self.assertEqual(self.read(self.folder / "empty")[1], ["empty: no file *.yaml, *.yml, *.json in it or below"])
        self.assertEqual(self.read(latin)[1], ["latin.json: byte 7 is not UTF-8"])
        self.assertEqual(self.read("a\0b")[1], ["a\0b: embedded null byte"])
        self.assertEqual(self.read(self.file("none", ""), self.file("blank", " \n")), ([], []))

    def test_each_file_is_read_once(self) -> None:
        path = self.file("a.json", OBJECT % "a")
        self.assertEqual(self.read(path, path)[0], ["a.json:1 Node a"])
        self.file("b.json", OBJECT % "b")
        (self.folder / "link.json").symlink_to(path)
        self.assertEqual(self.read(f"{self.folder}/./a.json", self.folder)[0], ["./a.json:1 Node a", "b.json:1 Node b"])
        inputs, seen = Inputs(), set[str]()
        self.assertEqual([len(inputs.things([str(one)], seen)) for one in (path, self.folder, path)], [1, 1, 0])
        # what is there twice in a file is there twice
        self.assertEqual(len(self.read(self.file("c.json", OBJECT % "c" * 2))[0]), 2)

    def test_standard_input(self) -> None:
        stdin = io.TextIOWrapper(io.BytesIO(b"\xef\xbb\xbf" + (OBJECT % "a").encode()))
        inputs = Inputs()
        with mock.patch.object(sys, "stdin", stdin):
            (thing,) = inputs.things(["-"])
            self.assertEqual(inputs.things(["-"]), [])
        self.assertEqual(str(thing.place), "stdin:1")
        self.assertEqual(list(map(str, inputs.troubles)), ["stdin: it is named twice, and can be read once"])

    def test_pipes(self) -> None:
        pipe = self.folder / "pipe.json"
        os.mkfifo(pipe)
        if not os.fork():
            Path(pipe).write_text(OBJECT % "a")
            os._exit(0)
        self.assertEqual(self.read(pipe)[0], ["pipe.json:1 Node a"])
        os.wait()
