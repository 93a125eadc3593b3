"""The functions of the shared library, as `celbpf.h` declares them."""

import ctypes
import os
from pathlib import Path
from typing import Callable, Tuple

from .refusal import Refused, Status

NAME = "libcelbpf.so.1"
VERSION = 1
DONE, DENIED = 0, 1
FIRST_ROOM = 4096


class Place(ctypes.Structure):
    """A place for a gate. A place of zeros is empty."""

    _fields_ = [("held", ctypes.c_void_p)]


def found() -> str:
    """The file that the environment names, that beside this module, or the loader's."""
    beside = Path(__file__).with_name(NAME)
    return os.environ.get("CELBPF_LIBRARY") or (str(beside) if beside.exists() else NAME)


def loaded() -> ctypes.CDLL:
    library = ctypes.CDLL(found())
    status, size, text = ctypes.c_uint32, ctypes.c_size_t, ctypes.c_char_p
    place, length = ctypes.POINTER(Place), ctypes.POINTER(ctypes.c_size_t)
    document, written = [text, size], [text, size, length]
    reviewed = [*document, *document, *document, ctypes.c_uint64, ctypes.c_uint64, *written]
    for name, takes, gives in (
        ("celbpf_gate_new_checked", [place, *document, *written], status),
        ("celbpf_gate_new_wide_checked", [place, *document, *written], status),
        ("celbpf_gate_decide_within_checked", [place, *reviewed], status),
        ("celbpf_gate_free", [place], None),
        ("celbpf_review_within_checked", [*document, *reviewed], status),
        ("celbpf_review_wide_checked", [*document, *reviewed], status),
        ("celbpf_compile_checked", [*document, *written], status),
        ("celbpf_version", [], status),
    ):
        function = getattr(library, name)
        function.argtypes, function.restype = takes, gives
    if library.celbpf_version() != VERSION:
        raise ImportError(f"{found()} has version {library.celbpf_version()} of the interface, and not {VERSION}")
    return library


LIBRARY = loaded()


def called(call: Callable, room_size: int = FIRST_ROOM) -> Tuple[int, bytes]:
    """The status and the text of a call that is given a room, its size, and where the length goes."""
    length = ctypes.c_size_t()
    while True:
        room = ctypes.create_string_buffer(room_size)
        status = call(room, room_size, ctypes.byref(length))
        # the line of a refusal may be longer than the room, too
        if length.value <= room_size:
            break
        room_size = length.value
    text = room.raw[: length.value]
    if status > DENIED:
        raise Refused(Status(status), text.decode().rstrip("\n"))
    return status, text
