"""The files that words name, as files that can be opened more than once.

A script opens a file itself and starts the program on it, often several times. Of a pipe, such as `/dev/stdin` or what a
shell puts for `<(..)`, the bytes are there once, and the program has another standard input than the script.
"""

import os
from pathlib import Path
from typing import Any, Optional, Union

from ..documents import Unreadable


class Files:
    """Copies, in a folder, of files that can be read only once; each is read when it is first named."""

    def __init__(self, folder: Union[str, Path]):
        self.folder = Path(folder)
        self.copies: dict[str, Any] = {}

    def named(self, file: Union[str, Path]) -> str:
        """The name of a regular file with the bytes of this one: it itself, where a link leads, or a copy."""
        name = str(file)
        if name in self.copies:
            return self.copies[name]
        try:
            # /dev/stdin is a link to what a shell redirected; of a pipe, or of a file that was removed, the name opens it alone
            real = os.path.realpath(name) if os.path.islink(name) else name
            if os.path.isfile(real):
                open(real, "rb").close()
                return real
            text = Path(name).read_bytes()
        except OSError as why:
            raise Unreadable(f"{name}: {why.strerror}") from why
        copy = self.folder / f"copy{len(self.copies)}{Path(name).suffix}"
        copy.write_bytes(text)
        self.copies[name] = str(copy)
        return str(copy)

    def maybe(self, file: Optional[str]) -> Optional[str]:
        """As `named`, for a word that may be missing."""
        return self.named(file) if file else None
