"""Each option of `vapctl`, each of its choices and each form of a report has a run in the tables of tools/data/run-vapctl."""

import argparse
import re
import unittest
from collections.abc import Iterator

from ..home import DATA, ROOT, is_checkout
from ..packaging.commands_manual import commands_of
from ..vapctl.main import parser
from ..vapctl.reports.words import FormWord

# a run of a subcommand, up to what ends its words
RUN = re.compile(r"vapctl ([a-z]+(?:-[a-z]+)*)\b([^|;&)\n]*)")


def runs() -> Iterator[tuple[str, list[str]]]:
    """The subcommand and the other words of each run."""
    for table in sorted((DATA / "run-vapctl").iterdir()):
        for line in table.read_text(encoding="utf-8").splitlines():
            asked = line.replace("$ ", "vapctl ", 1) if line.startswith("$ ") else line if line.startswith("% ") else ""
            for found in RUN.finditer(asked):
                yield found[1], re.sub(r"[\"']", "", found[2]).split()


def words_of(action: argparse.Action) -> Iterator[str]:
    """An option, with each of its choices if it has some."""
    name = next((one for one in action.option_strings if one.startswith("--")), action.option_strings[0])
    form: object = action.type
    choices = form.names if isinstance(form, FormWord) else action.choices
    yield from (f"{name} {one}" for one in choices) if choices else [name]


def used(words: list[str], action: argparse.Action) -> Iterator[str]:
    """The option with its choice, for each time that it is among the words."""
    name = next((one for one in action.option_strings if one.startswith("--")), action.option_strings[0])
    has_choices = bool(action.choices) or isinstance(action.type, FormWord)
    for place, word in enumerate(words):
        given, _, value = word.partition("=") if word.startswith("--") else (word, "", "")
        if given in action.option_strings:
            value = value or (words[place + 1] if has_choices and place + 1 < len(words) else "")
            yield f"{name} {value.partition('=')[0]}" if has_choices else name


class Rows(unittest.TestCase):
    def test_each_option_has_a_run(self) -> None:
        done: dict[str, list[list[str]]] = {}
        for command, words in runs():
            done.setdefault(command, []).append(words)
        for command, one in commands_of(parser()).items():
            for action in one._actions:
                if not action.option_strings or action.dest == "help":
                    continue
                found = {word for words in done.get(command, []) for word in used(words, action)}
                self.assertEqual(sorted(set(words_of(action)) - found), [], f"vapctl {command}")


class Helps(unittest.TestCase):
    def test_each_word_is_explained(self) -> None:
        for command, one in commands_of(parser()).items():
            for action in one._actions:
                self.assertTrue(action.help, f"vapctl {command}: {action.option_strings or action.dest}")

    @unittest.skipUnless(is_checkout(), "the pages are in the repository")
    def test_each_subcommand_is_on_the_page(self) -> None:
        page = (ROOT / "docs" / "VAPCTL.md").read_text(encoding="utf-8")
        named = set(re.findall(r"^\| `vapctl ([a-z-]+)", page, re.MULTILINE))
        self.assertEqual(named, set(commands_of(parser())))


if __name__ == "__main__":
    unittest.main()
