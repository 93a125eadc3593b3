"""A session that a client debugs: what is launched, its place, and what the client was told of it."""

from typing import Callable, Optional

from .arguments import BadRequest
from .breakpoints import Breakpoints
from .capabilities import FAULT_FILTER, FAULTS
from .evaluating import Evaluator
from .launching import Given, Launched
from .messages import Connection
from .motions import DATA, END, Motion, Run
from .variables import OUTCOMES, Store, View

THREAD = 1
# the outcomes of a policy that deny a request
DENIED = ("2", "3")
STOPS = {"limit of steps": "The session goes no further than this step.", END: "The program has ended."}


class Session:
    """What is launched, with its place, its breakpoints and the ways to look at it."""

    def __init__(self, launched: Launched, store: Store):
        self.launched = launched
        self.code = launched.code
        self.child = launched.child
        self.parts = launched.parts
        self.breakpoints = Breakpoints()
        self.run = Run(self.child, self.code, self.breakpoints)
        self.view = View(self.child, self.code, store, self.parts)
        self.evaluator = Evaluator(self.view, launched.program, launched.scope)


class Debuggee:
    """The state that requests share. `after` is what is sent once the request is answered."""

    def __init__(self, connection: Connection, given: Given):
        self.connection = connection
        self.given = given
        self.session: Optional[Session] = None
        self.store = Store()
        self.motion: Optional[Motion] = None
        self.after: list[Callable[[], None]] = []
        self.filters = {FAULT_FILTER}
        # the references of values that a client was told, which a breakpoint may name
        self.told_values = set[int]()
        # the number of the first line and column, as the client counts them
        self.first = 1
        self.is_over = False

    def shown(self) -> Session:
        """The session, which has to be there and at rest."""
        if self.motion:
            raise BadRequest("notStopped")
        return self.launched()

    def launched(self) -> Session:
        """The session, which has to be there."""
        if not self.session:
            raise BadRequest("nothing is launched")
        return self.session

    def line(self, number: int) -> int:
        """A line counted from 1 as the client counts it."""
        return number - 1 + self.first

    def own_line(self, number: int) -> int:
        """A line of the client counted from 1."""
        return number + 1 - self.first

    # -- moves

    def begin(self, motion: Motion) -> None:
        """Begins a move, which is made after the response."""
        self.store.clear()
        self.motion = motion

    def advance(self) -> None:
        """Makes a slice of the move, and tells where it stops if it does."""
        motion = self.motion
        if motion is None:
            return
        try:
            next(motion)
        except StopIteration as done:
            self.motion = None
            self.stopped(done.value)

    def interrupt(self) -> None:
        """Drops the move at the place that it has reached."""
        motion, self.motion = self.motion, None
        if motion:
            motion.close()

    # -- events

    def stopped(self, why: str) -> None:
        """Tells that a move has stopped, or that the program is over."""
        session = self.launched()
        place = session.run.place
        is_fault = why == END and place.fault is not None
        if why == END and (not session.launched.order.stops_at_all or (is_fault and FAULT_FILTER not in self.filters)):
            self.tell_end(session)
            self.finish()
            return
        body = {"reason": "exception" if is_fault else why, "threadId": THREAD, "allThreadsStopped": True}
        body["description"] = f"step {place.step} pc {place.pc} {place.status}"
        if is_fault:
            body["text"] = f"{place.fault}: {FAULTS.get(place.fault or '', '')}"
        elif why in STOPS:
            body["text"] = STOPS[why]
        numbers = session.run.stop_here()[1]
        if numbers and why != DATA and place.is_running:
            body["hitBreakpointIds"] = numbers
        if why == END:
            self.tell_end(session)
        self.connection.event("stopped", body)

    def tell_end(self, session: Session) -> None:
        """Shows the end of the program and the verdict."""
        verdict = session.child.many("w")
        lines = [f"step {session.run.place.step} {session.run.place.status}", *verdict]
        outcome = verdict[0].split()[1]
        if session.launched.order.policy and outcome in OUTCOMES:
            lines.append(OUTCOMES[outcome])
        self.connection.event("output", {"category": "stdout", "output": "\n".join(lines) + "\n"})

    def finish(self) -> None:
        """Tells that the program is over, and ends the session."""
        session = self.launched()
        outcome = session.child.many("w")[0].split()[1]
        is_denied = bool(session.launched.order.policy) and outcome in DENIED
        code = 1 if session.run.place.fault or is_denied else 0
        self.connection.event("exited", {"exitCode": code})
        self.terminate()

    def terminate(self) -> None:
        """Ends the session, and tells it."""
        self.close()
        self.connection.event("terminated")

    def close(self) -> None:
        """Ends the session, if there is one."""
        self.motion = None
        if self.session:
            session, self.session = self.session, None
            session.launched.close()
