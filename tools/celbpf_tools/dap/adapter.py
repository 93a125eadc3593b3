"""Reads requests, answers them in their order, and makes the moves between them."""

import sys
from typing import Any, BinaryIO, Callable, Optional

from ..entry import Stop
from .arguments import Arguments, BadRequest
from .child import Ended, Refused
from .debuggee import Debuggee
from .launching import Given
from .messages import BrokenMessage, BrokenStream, Connection
from .moving import Moving
from .setting import Setting
from .showing import Showing

Handler = Callable[[Arguments], Optional[dict[str, Any]]]


class Adapter:
    """An adapter on two streams, and what it was given."""

    def __init__(self, source: int, target: BinaryIO, given: Given = Given()):
        self.connection = Connection(source, target)
        self.debuggee = Debuggee(self.connection, given)
        groups: list[Any] = [Setting(self.debuggee), Showing(self.debuggee), Moving(self.debuggee)]
        self.handlers: dict[str, Handler] = {name: handler for group in groups for name, handler in group.handlers.items()}

    def serve(self) -> None:
        """Answers requests until the client disconnects or closes the input; the process is ended in any case."""
        try:
            while not self.debuggee.is_over:
                if not self.turn():
                    break
        except BrokenStream as why:
            self.say(f"the connection is broken: {why}")
            self.connection.event("terminated")
            raise Stop(str(why)) from why
        finally:
            self.debuggee.close()

    def turn(self) -> bool:
        """Answers a request, or makes a slice of a move, or waits; whether there is more to come."""
        try:
            message = self.connection.next()
        except BrokenMessage as why:
            self.say(str(why))
            return True
        if message is not None:
            self.take(message)
        elif self.connection.has_ended:
            return False
        elif self.debuggee.motion:
            if not self.connection.pump(0):
                self.guarded(self.debuggee.advance)
        else:
            self.connection.pump(None)
        return True

    def take(self, message: dict[str, Any]) -> None:
        """Answers a message, and then sends what comes after the answer."""
        if message.get("type") != "request":
            self.say(f"a message that is no request: type {message.get('type')!r}"[:200])
            return
        self.answer(message)
        after, self.debuggee.after = self.debuggee.after, []
        for told in after:
            self.guarded(told)

    def answer(self, request: dict[str, Any]) -> None:
        """Does a request, and answers it."""
        try:
            name = request.get("command")
            handler = self.handlers.get(name) if isinstance(name, str) else None
            if handler is None:
                raise BadRequest(f"{str(name)[:60]}: not a request of this adapter")
            body = handler(Arguments(request.get("arguments")))
        except (BadRequest, Refused) as why:
            self.connection.refuse(request, str(why))
        except Ended as why:
            self.connection.refuse(request, str(why))
            self.debuggee.after = [self.debuggee.terminate]
        else:
            self.connection.respond(request, body)

    def guarded(self, act: Callable[[], None]) -> None:
        """Does what no request waits for; what hinders it is told as output."""
        try:
            act()
        except Ended as why:
            self.say(str(why))
            self.debuggee.terminate()
        except (BadRequest, Refused) as why:
            self.debuggee.motion = None
            self.say(str(why))
            if self.debuggee.session:
                self.debuggee.stopped("pause")

    def say(self, line: str) -> None:
        """Shows a line to whoever uses the client."""
        self.connection.event("output", {"category": "stderr", "output": f"vapctl debug: {line}\n"})


def standard(given: Given) -> Adapter:
    """The adapter on the standard streams; nothing else may write to the standard output."""
    return Adapter(sys.stdin.fileno(), sys.stdout.buffer, given)
