"""How `vapctl` ends."""

import contextlib
import io
import unittest
from unittest import mock

from ..entry import Stop
from ..vapctl.commands import lint
from ..vapctl.main import main, similar


class Ends(unittest.TestCase):
    def ended(self, error: BaseException) -> int:
        """The status of a command that ends so."""
        with mock.patch.object(lint, "run", side_effect=error), contextlib.redirect_stderr(io.StringIO()) as said:
            try:
                return main(["lint", "p.yaml"])
            except Stop as why:
                return why.status
            except SystemExit as why:
                self.assertEqual(said.getvalue(), "")
                return int(why.code or 0)

    def test_statuses(self) -> None:
        rows: list[tuple[BaseException, int]] = [
            (Stop("no words", 2), 2), (Stop("no file"), 3), (KeyError("a"), 3),
            # of the scripts that build programs: no rt, and sources that do not compile
            (Stop("there is no program", 10), 3), (SystemExit(10), 3), (SystemExit(13), 3),
            # an editor's signal
            (SystemExit(143), 143),
        ]
        for error, status in rows:
            with self.subTest(repr(error)):
                self.assertEqual(self.ended(error), status)

    def test_what_may_be_meant(self) -> None:
        known = ["--policy", "--params", "--old", "--namespace", "--namespace-object"]
        for word, due in (("--pol", "--policy"), ("--name", "--namespace"), ("--odl", "--old"), ("--polcy", "--policy")):
            self.assertEqual(similar(word, known), f"; there is {due}")
        self.assertEqual(similar("--xyz", known), "")
