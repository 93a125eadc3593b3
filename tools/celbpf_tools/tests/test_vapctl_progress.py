"""What `vapctl audit` tells on a terminal meanwhile."""

import io
import unittest
from unittest import mock

from ..vapctl.commands import audit


class Terminal(io.StringIO):
    def isatty(self) -> bool:
        return True


class Told(unittest.TestCase):
    def told(self, stream: io.StringIO) -> str:
        """What is told of 1,200 answers, of which 1,024 come in a second."""
        moment = 0.0
        with mock.patch("sys.stderr", stream), mock.patch("time.monotonic", lambda: moment):
            progress = audit.Progress()
            for _ in range(1200):
                moment += 1 / 1024
                progress()
            progress.end()
        return stream.getvalue()

    def test_a_terminal(self) -> None:
        self.assertEqual(
            self.told(Terminal()), "\r205 answers\r410 answers\r615 answers\r820 answers\r1,025 answers\r\x1b[K",
        )

    def test_no_terminal(self) -> None:
        self.assertEqual(self.told(io.StringIO()), "")
