"""Tests that a run is judged as it is to be if an allocation is refused: programs in C that answer rightly, and wrongly."""

import shutil
import subprocess
import tempfile
import unittest
from pathlib import Path

from ..refusing.runs import Runs
from ..refusing.works import Answer, Calls, Command, Lines, Session, Work

# answers each line with itself, by two allocations, and ends at once if the first of all is refused; REFUSED is what it does
# if one is refused for a line
PROGRAM = """
#include <stdio.h>
#include <stdlib.h>
#include <string.h>
#include <unistd.h>

static void say(int to, const char *text) { if (write(to, text, strlen(text)) < 0) abort(); }

int main(void)
{
    char input[64] = {0}, *rest = input;
    if (!malloc(8)) { say(2, "celbpf: memory\\n"); return 3; }
    long size = read(0, input, 63);
    for (char *line; size > 0 && (line = strsep(&rest, "\\n")) && *line;) {
        char *one = malloc(16), *two = one ? realloc(one, 64) : 0;
        if (!two) { REFUSED; continue; }
        strcpy(two, line);
        say(1, strcat(two, "\\n"));
    }
    return 0;
}
"""
REFUSED = 'say(1, "{\\"refused\\":\\"memory\\"}\\n")'
MEMORY = 'say(1, "? memory\\n")'
LINES = b"a\nb\n"


@unittest.skipUnless(shutil.which("cc"), "there is no C compiler")
class Refusing(unittest.TestCase):
    def setUp(self) -> None:
        made = tempfile.TemporaryDirectory()
        self.addCleanup(made.cleanup)
        self.folder = Path(made.name)
        self.runs = Runs(self.folder)

    def program(self, refused: str) -> Path:
        made = self.folder / "program"
        text = PROGRAM.replace("REFUSED", refused).encode()
        subprocess.run(["cc", "-x", "c", "-w", "-o", made, "-"], input=text, check=True)
        return made

    def answers(self, work: Work) -> list[Answer]:
        """What a work answers for each of its allocations."""
        work.begin(self.runs)
        return [work.answer(self.runs, refused) for refused in range(1, self.runs.made() + 1)]

    def test_right_answers(self) -> None:
        self.assertEqual(self.answers(Lines([self.program(REFUSED)], LINES)), [Answer.MEMORY] * 5)
        self.assertEqual(self.answers(Session([self.program(MEMORY)], LINES.splitlines())), [Answer.MEMORY] * 5)

    def test_ample_answers(self) -> None:
        same = 'say(1, line), say(1, "\\n")'
        self.assertEqual(self.answers(Lines([self.program(same)], LINES)), [Answer.MEMORY, *[Answer.AMPLE] * 4])

    def test_wrong_answers(self) -> None:
        for refused in ('say(1, "other\\n")', "", "return 0", "return 3", 'say(2, "celbpf: memory\\n"); return 3', MEMORY):
            found = self.answers(Lines([self.program(refused)], LINES))
            self.assertEqual(found[0], Answer.MEMORY)
            self.assertIn(Answer.WRONG, found, refused)
        for refused in ('say(1, "other\\n")', "", MEMORY + "; return 0", REFUSED):
            found = self.answers(Session([self.program(refused)], LINES.splitlines()))
            self.assertIn(Answer.WRONG, found, refused)

    def test_files_and_calls(self) -> None:
        program = self.program(REFUSED)
        self.assertEqual(self.answers(Command([program])), [Answer.MEMORY])
        left = ["sh", "-c", f"printf a >written; exec {program}"]
        self.assertIn(Answer.WRONG, self.answers(Command(left, "written")))
        self.assertEqual(self.answers(Calls([program], b"")), [Answer.WRONG])
        with self.assertRaises(AssertionError):
            Calls(["false"], b"").begin(self.runs)
