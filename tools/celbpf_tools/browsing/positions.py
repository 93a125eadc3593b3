"""Moves the slider of a page, and compares what it shows with a session of the debugger at the same steps."""

import subprocess
from typing import Any, Iterator

from ..asking.program import NotAnswered, Program
from .browser import Page

REGISTERS = 11
# the most characters of a value that is shown
MOST_VALUE = 2_000

# what the page shows at each position of the slider
SHOWN = """(() => {
  const text = (one) => one.textContent;
  const rows = (id) => [...document.querySelectorAll(id + " tbody tr")].map((row) => [...row.children].map(text));
  const slider = document.getElementById("slider"), found = [];
  for (let step = 0; step <= Number(slider.max); step++) {
    slider.value = step;
    slider.dispatchEvent(new Event("input"));
    found.push({
      at: text(document.getElementById("at")), frames: text(document.getElementById("frames")),
      lines: rows("#listing"), registers: rows("#registers"), words: rows("#frame-words"),
    });
  }
  return found;
})()"""
AT = 'document.getElementById("at").textContent'
STEP = f"Number({AT}.split(' ')[1])"
# keys by their names, with their numbers in Windows
KEYS = {"ArrowRight": 39, "ArrowLeft": 37, "PageDown": 34, "PageUp": 33, "Home": 36, "End": 35}


def said(program: Program, image: str, asked: str) -> list[Any]:
    """The lines that a session writes; only a line feed ends one."""
    words: list[Any] = [program.path, "debug", image, *program.documents]
    ran = subprocess.run(words, input=asked.encode(), capture_output=True)
    if ran.returncode:
        raise NotAnswered(subprocess.CompletedProcess([], ran.returncode, "", ran.stderr.decode()))
    return ran.stdout.decode().split("\n")[:-1]


def printable(text: str) -> str:
    """A text as the page shows it: characters that would not show, or would turn the text around, by their numbers."""
    return "".join(one if one.isprintable() or one in "\n\t" else f"\\u{ord(one):04x}" for one in text)


def shortened(text: str) -> str:
    return text if len(text) <= MOST_VALUE else f"{text[:MOST_VALUE]}.. ({len(text)} characters)"


def sessions(program: Program, image: str, shown: list[Any]) -> list[Any]:
    """For each position the lines of a session: the move, the registers, the frames, the listing, values and words."""
    asked = ""
    for step, one in enumerate(shown):
        asked += f"g {step}\nr\nf\nl\n" + "".join(f"{line}\n" for line, _ in questions(one))
    return said(program, image, asked)


def questions(one: dict[str, Any]) -> list[Any]:
    """What is asked for the values and the words of frames that a position shows, with what it shows of each."""
    found = []
    for name, shown, value in one["registers"]:
        if value:
            found.append((f"v {int(shown.split()[0], 16)}", value))
    base = int(one["registers"][10][1].split()[0], 16)
    for place, shown, value in one["words"]:
        found.append((f"m 0x{base + int(place[4:-1]):016x} 8", shown))
        if value:
            found.append((f"v {int(shown, 16)}", value))
    return found


def answered(asked: str, line: str) -> str:
    """What a page shows for the answer to a question."""
    if asked.startswith("v "):
        return printable(shortened(line.split(" ", 2)[2] if line.startswith("value ") else line))
    return f"0x{int.from_bytes(bytes.fromhex(''.join(line.split()[1:])), 'little'):016x}"


class Compared:
    """The lines of a session, and how many of them were compared."""

    def __init__(self, lines: list[Any]):
        self.lines = lines
        self.at = 0

    def take(self, count: int) -> list[Any]:
        self.at += count
        return self.lines[self.at - count : self.at]

    def listing(self) -> list[Any]:
        """The answer to `l`, which ends before the line of a value, of memory or of the next move."""
        begin = self.at
        while self.at < len(self.lines) and self.lines[self.at].split(" ", 1)[0].isdigit():
            self.at += 1
        return self.lines[begin : self.at]

    def position(self, one: dict[str, Any]) -> Iterator[str]:
        """What a position shows otherwise than the session."""
        (move,) = self.take(1)
        if one["at"] != move:
            yield f"{move}: shown as {one['at']}"
        registers = [f"{name} {word.split()[0]}" for name, word, _ in one["registers"]]
        if registers != self.take(REGISTERS):
            yield f"{move}: other registers are shown"
        (depth,) = self.take(1)
        frames = "\n".join([depth, *self.take(int(depth.split()[1]))])
        if frames != one["frames"]:
            yield f"{move}: other frames are shown"
        listing = self.listing()
        now = next((place for place, line in enumerate(one["lines"]) if line[0]), 0)
        if [f"{slot} {line}" for _, slot, line, _ in one["lines"][now : now + len(listing)]] != listing:
            yield f"{move}: another listing is shown"
        for asked, value in questions(one):
            (line,) = self.take(1)
            if answered(asked, line) != value:
                yield f"{move}: {asked} is {line}, shown as {value}"


def positions_faults(page: Page, program: Program, image: str) -> tuple[Any, ...]:
    """How many positions were compared, and what they show otherwise than a session."""
    shown = page.value(SHOWN)
    compared = Compared(sessions(program, image, shown))
    return len(shown), [fault for one in shown for fault in compared.position(one)]


def pressed(page: Page, key: str, shift: bool = False) -> int:
    """The step that is shown after a key."""
    page.press(key, KEYS[key], shift)
    return page.value(STEP)


def newest(page: Page) -> int:
    """The step of the newest value that is shown, 0 if there is none."""
    return page.value("Number(document.querySelector('#made tbody td')?.textContent ?? 0)")


def keys_faults(page: Page) -> Iterator[str]:
    """Which keys and buttons do not go where they are to go."""
    last = page.value('Number(document.getElementById("slider").max)')
    page.value('document.querySelector("button[data-step]").click()')
    wanted = page.value('Number(document.querySelector("button[data-step]").dataset.step)')
    if page.value(STEP) != wanted:
        yield "a button of a value does not show its step"
    rows = [("Home", False, 0), ("ArrowRight", False, 1), ("ArrowLeft", False, 0), ("ArrowLeft", False, 0), ("End", False, last)]
    rows += [("ArrowRight", False, last), ("ArrowLeft", False, last - 1)]
    for key, shift, step in rows:
        found = pressed(page, key, shift)
        if found != step:
            yield f"{'Shift ' if shift else ''}{key} shows step {found}, not {step}"
    for key, end in (("ArrowRight", "Home"), ("ArrowLeft", "End")):
        pressed(page, end)
        found = pressed(page, key, True)
        if found != newest(page) or found in (0, last):
            yield f"Shift {key} shows step {found}, at which no value was made"
    pressed(page, "Home")
    part = page.value('document.getElementById("part").textContent')
    pressed(page, "PageDown")
    if page.value('document.getElementById("part").textContent') == part:
        yield "Page Down stays in its part"
    yield from button_faults(page, last)


def button_faults(page: Page, last: int) -> Iterator[str]:
    """Which buttons of the run do not go where they are to go."""
    for move, step in (("last", last), ("step back", last - 1), ("step", last), ("first", 0)):
        page.value(f"document.querySelector('button[data-move=\"{move}\"]').click()")
        if page.value(STEP) != step:
            yield f"the button {move} does not show step {step}"
    focused = page.value("[...document.querySelectorAll('button, summary, input')].every((one) => one.tabIndex >= 0)")
    if not focused:
        yield "a button cannot be reached by the keyboard"
