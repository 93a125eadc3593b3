"""Tests of the builder of the page, and of what a browser is sent."""

import argparse
import json
import tempfile
import unittest
from pathlib import Path
from typing import Any

from ..browsing.websocket import frame
from ..entry import Stop
from ..playground import module
from ..playground.building import CASE, embedded, page, rule, with_case, zipped
from ..playground.bundling import bundled, exports_of, unexported
from ..playground.examples import examples, first
from ..playground.sources import FOLDER
from ..playground.tables import tables
from ..vapctl.telling import files, shown_text

MODULES = {
    "main.js": '// head\nimport { twice as double } from "./one.js";\nimport * as all from "./one.js";\ndouble(all.THREE);\n',
    "one.js": "/**\n * @param {number} x\n */\nexport function twice(x) {\n  return 2 * x;\n}\nexport const THREE = 3, FOUR = 4;\n",
}


class Bundling(unittest.TestCase):
    """Modules as one script."""

    def bundled(self, modules: dict[str, str]) -> str:
        with tempfile.TemporaryDirectory() as folder:
            for name, text in modules.items():
                Path(folder, name).write_text(text)
            return bundled(Path(folder, "main.js"))

    def test_modules(self) -> None:
        wanted = '"use strict";\n'
        wanted += "const $module1 = (() => {\nfunction twice(x) {\n  return 2 * x;\n}\nconst THREE = 3, FOUR = 4;\nreturn { twice, THREE, FOUR };\n})();\n"
        wanted += "const $module0 = (() => {\nconst { twice: double } = $module1;\nconst all = $module1;\ndouble(all.THREE);\nreturn {  };\n})();\n"
        self.assertEqual(self.bundled(MODULES), wanted)

    def test_exports(self) -> None:
        rows = [
            ("export async function one() {}\n", ["one"]), ("export class Two {}\nexport function* three() {}\n", ["Two", "three"]),
            ("export const a = (b, c = 1) => b;\n", ["a"]), ("export const FIRST = 1, SECOND = f(x, 2);\n", ["FIRST", "SECOND"]),
            ("export { a, b };\n", ["a", "b"]), ("const hidden = 1;\n", []),
        ]
        for text, names in rows:
            self.assertEqual(exports_of(text), names, text)
        self.assertEqual(unexported("export const a = 1;\nexport { b };\nexports = 2;\n"), "const a = 1;\nexports = 2;\n")

    def test_end_of_a_script(self) -> None:
        for text in ('f("</script>");\n', 'f("<!--");\n'):
            with self.assertRaises(Stop):
                self.bundled({"main.js": text})

    def test_sources(self) -> None:
        for name in ("main.js", "worker.js"):
            text = bundled(FOLDER / name)
            self.assertNotRegex(text, r"(?m)^(import|export) ")


class Building(unittest.TestCase):
    """The page."""

    def page(self) -> str:
        with tempfile.NamedTemporaryFile() as file:
            return page(file.name)

    def test_parts(self) -> None:
        text = self.page()
        # comments of the template are replaced, but for those of scripts
        self.assertNotIn("/*MODULE*/", text)
        self.assertNotIn("<!--", text)
        self.assertEqual(text.count("</script>"), 7)
        self.assertEqual(text, self.page())

    def test_case(self) -> None:
        given = {"given": {"policy": "</script><!-- \u2028 & \U0001f600"}}
        text = with_case(self.page(), given)
        held = text.split('id="case">')[1].split("</script>")[0]
        self.assertEqual(json.loads(held), given)
        self.assertNotIn(CASE, text)

    def test_embedded(self) -> None:
        text = embedded({"</script>": "<!-- \u2028 & \U0001f600"})
        self.assertTrue(text.isascii() and not set(text) & set("<>&"))

    def test_rule(self) -> None:
        # `printf a | sha256sum` and so on, in base64
        text = rule("a", "b")
        self.assertIn("style-src &#x27;sha256-ypeBEsobvcr6wjGzmiPcTaeG7/gUfE5yuYB3ha/uSLs=&#x27;", text)
        self.assertTrue(text.startswith("default-src &#x27;none&#x27;;"))
        self.assertNotIn("connect-src", text)

    def test_zipped(self) -> None:
        self.assertEqual(zipped(b"a"), zipped(b"a"))

    def test_tables(self) -> None:
        found = tables()
        self.assertEqual(json.loads(json.dumps(found)), found)
        self.assertIn(["Deployment", "deployments", True, "apps", "v1"], found["kinds"])
        self.assertIn(["Pod", "pods", True, "", "v1"], found["kinds"])

    def test_examples(self) -> None:
        found = {**first(), **examples()}
        self.assertEqual(list(found)[0], "a first look")
        self.assertTrue(all(one["policy"] and one["reviews"] for one in found.values()))
        self.assertIn("five", found["replicas"]["reviews"])
        self.assertIn("no resources", found["limits, in YAML"]["reviews"])

    def test_module(self) -> None:
        self.assertEqual(module.located("a.wasm"), Path("a.wasm"))
        self.assertEqual(module.told("a.wasm"), "the module a.wasm")


class Writing(unittest.TestCase):
    """What `vapctl why` puts into the page."""

    def test_files(self) -> None:
        given: dict[str, Any] = {"policy": "p", "review": "r", "namespace": None, "params": "q", "case": None}
        self.assertEqual(files(argparse.Namespace(**given)), ["p", "r", "params q"])
        # the documents of a case are files that do not outlive the script
        asked = {**given, "policy": "/tmp/x/p", "case": "five", "tests": "t.yaml"}
        self.assertEqual(files(argparse.Namespace(**asked)), ["case five of t.yaml"])

    def test_texts(self) -> None:
        rows = [('{"a": [1]}', '{\n  "a": [\n    1\n  ]\n}'), ("a: 1\n", "a: 1\n"), ('{\n"a": 1}', '{\n"a": 1}'), ("{a: 1}", "{a: 1}")]
        for text, wanted in rows:
            with tempfile.NamedTemporaryFile("w") as file:
                file.write(text)
                file.flush()
                self.assertEqual(shown_text(file.name), wanted)
        self.assertEqual(shown_text(None), "")


class Sending(unittest.TestCase):
    """Messages to a browser."""

    def test_frame_of_a_web_socket(self) -> None:
        # RFC 6455, section 5.7: a single frame with a masked text
        mask = bytes.fromhex("37fa213d")
        self.assertEqual(frame(1, b"Hello", mask), bytes.fromhex("818537fa213d7f9f4d5158"))
