"""Messages of the Debug Adapter Protocol over two streams: a header with `Content-Length`, and a JSON object."""

import json
import os
import select
from typing import Any, BinaryIO, Optional

HEADER_END = b"\r\n\r\n"
LENGTH = "content-length"
# the most bytes of a header and of a body that are read
LONGEST_HEADER = 4096
LONGEST_BODY = 16 * 1024 * 1024
CHUNK = 65_536


class BrokenMessage(Exception):
    """A message that is not a JSON object; the next one can be read."""


class BrokenStream(Exception):
    """Where a message ends is unknown, so nothing more can be read."""


def length_in(header: bytes) -> int:
    """The length of the body that a header announces; other fields of it are passed over."""
    for line in header.decode("latin-1").split("\r\n"):
        name, colon, value = line.partition(":")
        if not colon:
            raise BrokenStream(f"a header line without a colon: {line[:60]!r}")
        if name.strip().lower() == LENGTH:
            number = value.strip()
            if not (number.isascii() and number.isdigit() and int(number[:20]) <= LONGEST_BODY):
                raise BrokenStream(f"Content-Length {number[:60]!r} is not a number from 0 to {LONGEST_BODY}")
            return int(number)
    raise BrokenStream("a header without Content-Length")


def object_in(body: bytes) -> dict[str, Any]:
    """The JSON object of a body."""
    try:
        found = json.loads(body)
    except (ValueError, RecursionError) as why:
        raise BrokenMessage(f"a message that is not JSON: {why}") from why
    if not isinstance(found, dict):
        raise BrokenMessage("a message that is not a JSON object")
    return found


class Connection:
    """Reads messages from a file descriptor and writes numbered ones to a stream."""

    def __init__(self, source: int, target: BinaryIO):
        self.source = source
        self.target = target
        self.unread = b""
        self.has_ended = False
        self.sent = 0

    def pump(self, seconds: Optional[float]) -> bool:
        """Waits for input, forever if `seconds` is `None`, and takes what is there; whether anything was."""
        if self.has_ended or not select.select([self.source], [], [], seconds)[0]:
            return False
        found = os.read(self.source, CHUNK)
        self.has_ended = not found
        self.unread += found
        return True

    def next(self) -> Optional[dict[str, Any]]:
        """The next message that was read to its end, or `None` if there is none yet."""
        header, end, rest = self.unread.partition(HEADER_END)
        if not end:
            if len(self.unread) > LONGEST_HEADER:
                raise BrokenStream(f"a header of more than {LONGEST_HEADER} bytes")
            if self.has_ended and self.unread:
                raise BrokenStream("the input ended within a header")
            return None
        length = length_in(header)
        if len(rest) < length:
            if self.has_ended:
                raise BrokenStream(f"the input ended {length - len(rest)} bytes before the end of a message")
            return None
        self.unread = rest[length:]
        return object_in(rest[:length])

    def send(self, kind: str, fields: dict[str, Any]) -> None:
        """Writes a message of a kind: `response` or `event`."""
        self.sent += 1
        body = json.dumps({"seq": self.sent, "type": kind, **fields}, separators=(",", ":")).encode()
        self.target.write(b"Content-Length: %d%s%s" % (len(body), HEADER_END, body))
        self.target.flush()

    def event(self, name: str, body: Optional[dict[str, Any]] = None) -> None:
        """Writes an event."""
        self.send("event", {"event": name, **({"body": body} if body is not None else {})})

    def respond(self, request: dict[str, Any], body: Optional[dict[str, Any]] = None) -> None:
        """Writes the response to a request that was done."""
        self.send("response", {**answers(request), "success": True, **({"body": body} if body is not None else {})})

    def refuse(self, request: dict[str, Any], line: str) -> None:
        """Writes the response to a request that was not done, with the reason."""
        # a variable in braces would be looked up among others, so the text is one
        error = {"id": 1, "format": "{line}", "variables": {"line": line}, "showUser": True}
        self.send("response", {**answers(request), "success": False, "message": line, "body": {"error": error}})


def answers(request: dict[str, Any]) -> dict[str, Any]:
    """The fields that say which request a response is for."""
    seq = request.get("seq")
    is_number = isinstance(seq, int) and not isinstance(seq, bool)
    return {"request_seq": seq if is_number else 0, "command": str(request.get("command", ""))}
