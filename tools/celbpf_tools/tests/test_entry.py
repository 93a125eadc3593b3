"""How a script begins and ends."""

import contextlib
import io
import subprocess
import unittest
from pathlib import Path
from typing import Any, Callable

from ..entry import CLOSED, INTERRUPTED, Stop, ended, parser_of
from ..home import TOOLS

DOC = """Counts words.

usage: tools/count FILE
       tools/count --all

`tools/other` shows them.
"""


def raising(error: BaseException) -> Callable[[], int]:
    """A command that ends so."""

    def command() -> int:
        raise error

    return command


class Ends(unittest.TestCase):
    def told(self, command: Callable[..., Any]) -> tuple[Any, ...]:
        with contextlib.redirect_stderr(io.StringIO()) as said:
            return ended("script", command), said.getvalue()

    def test_status_of_a_command(self) -> None:
        self.assertEqual(self.told(lambda: None), (0, ""))
        self.assertEqual(self.told(lambda: 1), (1, ""))

    def test_a_stop_and_a_missing_file(self) -> None:
        self.assertEqual(self.told(raising(Stop("no tests", 2))), (2, "script: no tests\n"))
        missing = FileNotFoundError(2, "No such file or directory", "p.json")
        self.assertEqual(self.told(raising(missing)), (3, "script: p.json: No such file or directory\n"))
        self.assertEqual(self.told(raising(OSError(28, "No space left on device")))[0], 3)

    def test_what_a_script_did_not_expect(self) -> None:
        status, said = self.told(raising(KeyError("allowed")))
        self.assertEqual((status, said.splitlines()[-1]), (3, "KeyError: 'allowed'"))

    def test_a_closed_pipe_and_an_interrupt(self) -> None:
        self.assertEqual(self.told(raising(BrokenPipeError())), (CLOSED, ""))
        self.assertEqual(self.told(raising(KeyboardInterrupt())), (INTERRUPTED, ""))


class Helps(unittest.TestCase):
    def test_usage_text_and_options(self) -> None:
        parser = parser_of(DOC)
        parser.add_argument("--all", action="store_true", help="count all")
        usage, what, options = parser.format_help().split("\n\n", 2)
        self.assertEqual(usage, "usage: tools/count FILE\n       tools/count --all")
        self.assertEqual((what, options.split("\n")[0]), ("Counts words.", "`tools/other` shows them."))
        self.assertIn("--all       count all", options)

    def test_each_script_tells(self) -> None:
        texts = (path for path in Path(TOOLS).iterdir() if path.is_file() and path.name != "launch")
        for script in sorted(texts):
            with self.subTest(script.name):
                ran = subprocess.run([script, "--help"], capture_output=True, text=True, timeout=60, check=False)
                self.assertEqual((ran.returncode, ran.stderr), (0, ""))
                self.assertIn(f"tools/{script.name}", ran.stdout.split("usage: ")[1])
