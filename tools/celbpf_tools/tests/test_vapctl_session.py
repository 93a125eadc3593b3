"""A session on a terminal, with a stand-in for the program."""

import json
import os
import pty
import sys
import unittest
from typing import Any

from ..dap.parts import Parts, parts_of
from ..home import EXAMPLES, PACKAGE
from ..slots.layout import program_of
from ..slots.mapping import SlotMap
from ..vapctl import session

PROGRAM = """import sys
sys.dont_write_bytecode = True
sys.path.insert(0, {path!r})
sys.argv = ["vapctl"]
from pathlib import Path
from celbpf_tools.dap.child import Child
from celbpf_tools.entry import run
from celbpf_tools.vapctl import session
def main():
    return session.talk(Child([sys.executable, "-B", {stand_in!r}, "debug", {image!r}]))
run("vapctl", main)
"""
STAND_IN = str(PACKAGE / "tests" / "debugger_stand_in.py")


def on_terminal(image: str, *lines: str) -> tuple[int, list[str]]:
    """The status of a session on a terminal, and the lines that it prints, without those that are typed."""
    child, terminal = pty.fork()
    if not child:
        program = PROGRAM.format(path=str(PACKAGE.parent), stand_in=STAND_IN, image=image)
        os.execvpe(sys.executable, [sys.executable, "-B", "-c", program], {**os.environ, "TERM": "dumb"})
    said = b""
    for line in ("", *lines):
        if line:
            os.write(terminal, f"{line}\n".encode())
        while not said.endswith(session.PROMPT.encode()):
            try:
                more = os.read(terminal, 1_000)
            except OSError:
                more = b""
            if not more:
                break
            said += more
        said += b"\r\n" if said.endswith(session.PROMPT.encode()) else b""
    _, status = os.waitpid(child, 0)
    os.close(terminal)
    shown = said.decode().replace("\x1b[?2004h", "").replace("\x1b[?2004l", "").replace("\r", "\n").split("\n")
    return os.waitstatus_to_exitcode(status), [one for one in shown if one and one not in lines and not one.startswith(session.PROMPT)]


class Sessions(unittest.TestCase):
    def test_commands_and_what_is_none(self) -> None:
        status, said = on_terminal("image", "c", "  rs   2 ", "s", "v 9", "v 99", "v", "nothing", "r 3", "quit")
        self.assertEqual((status, said), (0, [
            "`help` lists the commands", "step 6 pc 3 exited 0x0000000000000002", "step 4 pc 2 running", "step 5 pc 3 running",
            "value 9 3", "? range: the number is out of range", "10 values, 0 to 9", "nothing: no command; `help` lists them",
            "r 3: `r` takes no more words. `r`: show the registers",
        ]))

    def test_a_wrong_argument(self) -> None:
        status, said = on_terminal("image", "s 01", "g 3 1", "m 0X1 3", "b validation 0", "p", "q")
        whole = "is a whole number without leading zeros"
        parts = "no parts are known: this is an image alone, or its parts are not mapped"
        self.assertEqual((status, said[1:]), (0, [
            f"s 01: N {whole}. `s N`: go N steps on; `s` alone is `s 1`", f"g 3 1: K {whole}. `g K`: go to step K",
            "m 0X1 3: A is 0x and 1 to 16 hex digits in lower case; L is from 1 to 256. `m A L`: show L bytes of memory from address A on, "
            "as `m 0x300000000 16`",
            f"b validation 0: {parts}", parts,
        ]))

    def test_breakpoints_are_listed(self) -> None:
        _, said = on_terminal("image", "b", "b 4", "b 2", "b", "d 4", "b", "q")
        self.assertEqual(said[1:], ["no breakpoint is set", "break 4", "break 2", "break 2", "break 4", "clear 4", "break 2"])

    def test_a_fault_is_explained(self) -> None:
        _, said = on_terminal("fault", "c", "q")
        self.assertEqual(said[1:], ["step 6 pc 3 fault F3: an access is outside the regions, or crosses the border of one"])

    def test_a_jump_has_its_target(self) -> None:
        child: Any = self
        asker = session.Asker(child, Parts())
        for said, due in [("2 jeq64 r1, 0, +3", "  to 6"), ("5 ja -4", "  to 2"), ("9 call_local +0", "  to 10"), ("3 add64 r0, -1", ""),
                          ("7 ldxw r1, [r2+4]", ""), ("-1 outside", ""), ("4 jset32 r1, r2, -1", "  to 4")]:
            self.assertEqual(asker.shown(said), [said + due])

    def test_help_has_each_command_of_the_page(self) -> None:
        status, said = on_terminal("image", "help", "q")
        self.assertEqual(status, 0)
        page = (PACKAGE.parents[1] / "docs" / "DEBUGGER.md").read_text(encoding="utf-8")
        rows = page.split("| Line | Effect and answer |")[1].split("\n\n")[0].split("\n")[2:]
        due = [word for row in rows for word in row.split("|")[1].replace("`", "").strip().split(", ")]
        # of a terminal alone
        self.assertIn("`p` lists", " ".join(page.split("## On a terminal")[1].split("## ")[0].split()))
        self.assertEqual(sorted(line[:6].strip() for line in said[1:]), sorted([*due, "p"]))


class OfPolicy(unittest.TestCase):
    """A session on a policy, whose parts are known; the slots are those of the policy in docs/POLICIES.md."""

    def setUp(self) -> None:
        policy = json.loads((EXAMPLES / "replicas" / "policy.json").read_text())
        lines = SlotMap(program_of(policy)).lines.values()
        child: Any = self
        self.asker = session.Asker(child, parts_of(policy, "\n".join(lines), {}))

    def ask(self, line: str) -> list[str]:
        """Stands in for the process."""
        slot = line.split()[-1]
        verdict = ["verdict 3 1", "validation 0 1", "message 0 9"]
        return {"b": [f"break {slot}"], "s": [f"step {slot} pc {slot} running"], "w": verdict}[line[0]]

    def test_parts(self) -> None:
        self.assertEqual(self.asker.answer("p"), ["    0 validation 0: object.spec.replicas <= 3"])
        self.assertEqual(self.asker.answer("s 9"), ["step 9 pc 9 running  validation 0: object.spec.replicas"])
        self.assertEqual(self.asker.answer("b validation 0"), ["break 0  validation 0: object"])
        self.assertEqual(self.asker.answer("b"), ["break 0  validation 0: object"])
        self.assertEqual(self.asker.answer("w"), ["verdict 3 1: denied", "validation 0 1: false", "message 0 9"])
        self.assertEqual(self.asker.answer("b message 7"), ["b message 7: no part is called message 7; `p` lists them"])


if __name__ == "__main__":
    unittest.main()
