"""The image of a program: the code that `celbpf asm` makes of its plain text, and the constants."""

import struct
import subprocess
from pathlib import Path

from ..asking.program import NotAnswered
from .programs import Program

# the text of version 1, the number of slots, and the number of bytes of constants (docs/MACHINE.md)
HEAD = struct.Struct("<8sII")


def image_of(program: Program, celbpf: Path, folder: Path) -> bytes:
    """The bytes of the image. Raises `NotAnswered` if `celbpf asm` refuses the plain text."""
    text, image = folder / "plain.asm", folder / "plain.img"
    text.write_text(program.plain, encoding="ascii")
    ran = subprocess.run([celbpf, "asm", text, image], capture_output=True, text=True, check=False)
    if ran.returncode:
        raise NotAnswered(ran)
    made = image.read_bytes()
    version, slots, _ = HEAD.unpack_from(made)
    return HEAD.pack(version, slots, len(program.constants.bytes)) + made[HEAD.size :] + program.constants.bytes
