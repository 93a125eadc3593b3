"""Messages over a web socket (RFC 6455), as a client on the loopback."""

import base64
import os
import socket
import struct
from typing import Any

TEXT, CLOSE, PING, PONG = 1, 8, 9, 10
LAST, MASKED = 0x80, 0x80
# lengths that are told by two and by eight bytes more
TWO, EIGHT = 126, 127


def frame(kind: int, content: bytes, mask: bytes) -> bytes:
    """A whole message of a client, masked."""
    if len(content) < TWO:
        length = struct.pack("!B", MASKED | len(content))
    elif len(content) < 1 << 16:
        length = struct.pack("!BH", MASKED | TWO, len(content))
    else:
        length = struct.pack("!BQ", MASKED | EIGHT, len(content))
    masked = bytes(one ^ mask[place % 4] for place, one in enumerate(content))
    return bytes([LAST | kind]) + length + mask + masked


class WebSocket:
    """A connection to a path of a port of the loopback."""

    def __init__(self, port: int, path: str, seconds: float = 60):
        self.socket = socket.create_connection(("127.0.0.1", port), seconds)
        self.rest = b""
        key = base64.b64encode(os.urandom(16)).decode()
        lines = [f"GET {path} HTTP/1.1", f"Host: 127.0.0.1:{port}", "Upgrade: websocket", "Connection: Upgrade"]
        lines += [f"Sec-WebSocket-Key: {key}", "Sec-WebSocket-Version: 13", "", ""]
        self.socket.sendall("\r\n".join(lines).encode())
        while b"\r\n\r\n" not in self.rest:
            self.take_more()
        head, self.rest = self.rest.split(b"\r\n\r\n", 1)
        if b" 101 " not in head.split(b"\r\n")[0]:
            raise ConnectionError(head.decode(errors="replace"))

    def take_more(self) -> None:
        got = self.socket.recv(1 << 16)
        if not got:
            raise ConnectionError("the browser has closed the connection")
        self.rest += got

    def taken(self, count: int) -> bytes:
        """The next bytes."""
        while len(self.rest) < count:
            self.take_more()
        found, self.rest = self.rest[:count], self.rest[count:]
        return found

    def send(self, text: str) -> None:
        self.socket.sendall(frame(TEXT, text.encode(), os.urandom(4)))

    def one_frame(self) -> tuple[Any, ...]:
        """Whether a frame is the last of its message, its kind and its content."""
        first, second = self.taken(2)
        length = second & ~MASKED
        if length == TWO:
            (length,) = struct.unpack("!H", self.taken(2))
        elif length == EIGHT:
            (length,) = struct.unpack("!Q", self.taken(8))
        return first & LAST, first & 15, self.taken(length)

    def receive(self) -> str:
        """The next message of text."""
        content = b""
        while True:
            is_last, kind, part = self.one_frame()
            if kind == CLOSE:
                raise ConnectionError("the browser has closed the connection")
            if kind == PING:
                self.socket.sendall(frame(PONG, part, os.urandom(4)))
            elif kind != PONG:
                content += part
                if is_last:
                    return content.decode()

    def close(self) -> None:
        self.socket.close()
