"""The pieces of an expression's text, how texts are shown, and files that can be read only once."""

import os
import threading
import unittest
from pathlib import Path
from typing import Any

from ..asking import files, texts
from ..asking.splitter import NotCut, cut
from ..dap.launching import Order, with_files
from ..documents import Unreadable
from . import test_documents


def parts(text: str) -> list[Any]:
    """The texts of the parts of an expression."""
    return [text[part.begin : part.end] for part in cut(text).parts]


class Pieces(unittest.TestCase):
    def test_operands_and_branches(self) -> None:
        self.assertEqual(parts("a + b * c"), ["a", "b * c"])
        self.assertEqual(parts("a ? b : c ? d : e"), ["a", "b", "c ? d : e"])
        self.assertEqual(parts("has(a.b) && !c"), ["has(a.b)", "!c"])

    def test_a_macro_keeps_its_range_and_its_predicate(self) -> None:
        piece = cut("a.b.all(c, c.d == 1)")
        self.assertEqual((piece.kind, piece.word, piece.name), ("macro", "all", "c"))
        self.assertEqual(parts("a.b.all(c, c.d == 1)"), ["a.b", "c.d == 1"])

    def test_what_is_not_cut(self) -> None:
        for text in ("", "a +", "(a", "a b", "'a", "a ? b"):
            with self.subTest(text), self.assertRaises((NotCut, IndexError)):
                cut(text)


class Once(test_documents.Files):
    """Files by their names, of which a pipe can be read once."""

    def setUp(self) -> None:
        super().setUp()
        self.made = files.Files(self.folder)
        self.plain = self.file("plain.json", "plain")

    def pipe(self) -> Path:
        """A pipe with a text that is written once."""
        path = self.folder / "pipe.yaml"
        os.mkfifo(path)
        threading.Thread(target=path.write_text, args=("once",), daemon=True).start()
        return path

    def test_a_regular_file_is_itself(self) -> None:
        self.assertEqual(self.made.named(self.plain), str(self.plain))
        self.assertIsNone(self.made.maybe(None))

    def test_a_pipe_is_copied_once(self) -> None:
        pipe = self.pipe()
        first, second = self.made.named(pipe), self.made.named(pipe)
        self.assertEqual((first, Path(first).read_text(), Path(first).suffix), (second, "once", ".yaml"))

    def test_a_link_is_followed_to_what_the_process_has_open(self) -> None:
        with open(self.plain, "rb") as opened:
            self.assertEqual(self.made.named(f"/dev/fd/{opened.fileno()}"), str(self.plain.resolve()))
            self.plain.unlink()
            self.assertEqual(Path(self.made.named(f"/proc/self/fd/{opened.fileno()}")).read_text(), "plain")

    def test_what_cannot_be_read(self) -> None:
        for name, why in [("none", "No such file or directory"), (".", "Is a directory")]:
            with self.subTest(name), self.assertRaisesRegex(Unreadable, why):
                self.made.named(self.folder / name)

    def test_a_launch(self) -> None:
        order = Order(None, str(self.plain), ["--review", str(self.pipe())], None, None, True, True)
        kept = with_files(order, str(self.folder))
        self.assertEqual((kept.policy, Path(kept.documents[1]).read_text()), (str(self.plain), '"once"'))


class Texts(unittest.TestCase):
    def test_one_line(self) -> None:
        self.assertEqual(texts.on_one_line("a\nb\x1b"), "a b\\u001b")

    def test_carets(self) -> None:
        self.assertEqual(texts.pointed("a\nbc d", 3, 5), "    bc d\n     ^^")
