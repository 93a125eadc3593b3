"""`vapctl asm`: a program's text with comments, free blanks, hex numbers and named constants."""

import argparse
import sys
import tempfile
from pathlib import Path
from typing import Union

from ...asking.program import NotAnswered, located
from ...asking.texts import escaped, pointed
from ...assembling.images import image_of
from ...assembling.programs import Program, read
from ...entry import Stop
from ..checking import tell
from ..inputs import STDIN, STDIN_NAME
from ..refusals import words_of_refusal
from ..results import plural
from ..statuses import GOOD, REFUSED, WORDS

MORE = """It gives the image with the constants (-o), the text that `celbpf asm` takes (--plain), or both; without either it prints
that text. The code of the image is what `celbpf asm` makes of it. docs/ASSEMBLER.md has the form. If lines are refused,
each is shown with its column and what is expected there."""


def words(parser: argparse.ArgumentParser) -> None:
    """The options of the command."""
    parser.add_argument("text", metavar="TEXT", help="the program's text; - is standard input")
    parser.add_argument("-o", "--output", metavar="IMAGE", help="write the image with its constants; - is standard output")
    parser.add_argument("--plain", metavar="F", help="write the text that `celbpf asm` takes; - is standard output")
    parser.add_argument("--program", metavar="PROGRAM", help="the program celbpf to ask, if not the one that is installed")


def run(given: argparse.Namespace) -> int:
    """Writes the image, the text for `celbpf asm`, or both; or shows the faults."""
    if "" in (given.output, given.plain):
        raise Stop("the file of -o or --plain has no name", WORDS)
    if given.output == given.plain == STDIN:
        raise Stop("the image and the text go to one place", WORDS)
    text = text_of(given.text)
    program = read(text)
    refuse(given.text, text, program)
    if given.output:
        with tempfile.TemporaryDirectory() as folder:
            try:
                image = image_of(program, located(given.program), Path(folder))
            except NotAnswered as why:
                raise Stop(words_of_refusal(why.line), REFUSED) from why
        write(given.output, image)
    if given.plain or not given.output:
        write(given.plain or STDIN, program.plain)
        if program.constants.bytes and not given.output:
            tell(f"this text has no constants; -o IMAGE writes the {plural(len(program.constants.bytes), 'byte')} of them too")
    return GOOD


def text_of(name: str) -> str:
    """The text of a file, or of standard input."""
    try:
        text = sys.stdin.buffer.read() if name == STDIN else Path(name).read_bytes()
        return text.decode("utf-8-sig")
    except UnicodeDecodeError as why:
        raise Stop(f"{shown(name)}: byte {why.start} is not UTF-8", REFUSED) from why


def shown(name: str) -> str:
    """How messages call a file."""
    return STDIN_NAME if name == STDIN else name


def refuse(name: str, text: str, program: Program) -> None:
    """Shows each fault with its line, and ends the command."""
    lines = text.replace("\r\n", "\n").split("\n")
    for number, fault in program.faults:
        print(f"{shown(name)}:{number}:{fault.column}: {escaped(fault.why)}", file=sys.stderr)
        at = fault.column - 1
        print(pointed(lines[number - 1].replace("\t", " "), at, at + 1), file=sys.stderr)
    if program.faults:
        count = len({number for number, _ in program.faults})
        raise Stop(f"{plural(count, 'line')} {'is' if count == 1 else 'are'} refused", REFUSED)
    if not program.slots:
        raise Stop(f"{shown(name)}: there is no instruction", REFUSED)


def write(name: str, content: Union[bytes, str]) -> None:
    """Writes a file, or to standard output."""
    made = content.encode() if isinstance(content, str) else content
    if name == STDIN:
        sys.stdout.flush()
        sys.stdout.buffer.write(made)
    else:
        Path(name).write_bytes(made)
