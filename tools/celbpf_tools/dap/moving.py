"""The requests that move a session. A move is made after its response; `stopped` tells where it ended."""

from typing import Any, Optional

from .arguments import Arguments, BadRequest
from .debuggee import THREAD, Debuggee, Session
from .launching import INSTRUCTION, PART, PIECE
from .motions import Motion, Named, Run

STATEMENT = "statement"
# what a step leaves by each granularity of the protocol; a statement is what the launch says
GRANULARITIES = {STATEMENT: PART, "line": PIECE, "instruction": INSTRUCTION}


class Moving:
    """Moves, by their requests."""

    def __init__(self, debuggee: Debuggee):
        self.debuggee = debuggee
        self.handlers = {
            "continue": self.go_on, "next": self.next, "stepIn": self.step_in, "stepOut": self.step_out,
            "stepBack": self.step_back, "reverseContinue": self.reverse, "pause": self.pause,
        }

    def moved(self, given: Arguments) -> Session:
        """The session that a request moves."""
        thread = given.number("threadId", THREAD)
        if thread != THREAD:
            raise BadRequest(f"threadId: there is no thread {thread}")
        return self.debuggee.shown()

    def named(self, given: Arguments, session: Session) -> Optional[Named]:
        """What a step is to leave: a part of the policy, or a piece of one; `None` for an instruction."""
        granularity = given.text("granularity") or STATEMENT
        if granularity not in GRANULARITIES:
            raise BadRequest(f"granularity: not one of {', '.join(GRANULARITIES)}")
        by = session.launched.order.step_by if granularity == STATEMENT else GRANULARITIES[granularity]
        names = {PART: session.parts.part_at, PIECE: session.parts.piece_at}
        return names.get(by) if session.parts else None

    def forward(self, session: Session, motion: Motion) -> None:
        """Begins a move forward; from the end of the program it ends the session."""
        if session.run.place.is_running:
            self.debuggee.begin(motion)
        else:
            self.debuggee.after.append(self.debuggee.finish)

    def go_on(self, given: Arguments) -> Optional[dict[str, Any]]:
        """On to a breakpoint, the making of a watched value, or the end."""
        session = self.moved(given)
        self.forward(session, session.run.proceed())
        return {"allThreadsContinued": True}

    def next(self, given: Arguments) -> Optional[dict[str, Any]]:
        """One step on, past local calls."""
        session = self.moved(given)
        run: Run = session.run
        named = self.named(given, session)
        self.forward(session, run.next_part(named, False) if named else run.over())
        return None

    def step_in(self, given: Arguments) -> Optional[dict[str, Any]]:
        """One step on, into local calls."""
        session = self.moved(given)
        run: Run = session.run
        named = self.named(given, session)
        self.forward(session, run.next_part(named, True) if named else run.step())
        return None

    def step_out(self, given: Arguments) -> Optional[dict[str, Any]]:
        """On to the end of the newest local call, or of the program."""
        session = self.moved(given)
        self.forward(session, session.run.out())
        return None

    def step_back(self, given: Arguments) -> Optional[dict[str, Any]]:
        """One step back."""
        session = self.moved(given)
        run: Run = session.run
        named = self.named(given, session)
        self.debuggee.begin(run.last_part(named) if named else run.step_back())
        return None

    def reverse(self, given: Arguments) -> Optional[dict[str, Any]]:
        """Back to a breakpoint, to the making of a watched value, or to step 0."""
        session = self.moved(given)
        self.debuggee.begin(session.run.reverse())
        return None

    def pause(self, _: Arguments) -> Optional[dict[str, Any]]:
        """Stops a run; of one that is at rest it tells the place again."""
        self.debuggee.launched()
        self.debuggee.interrupt()
        self.debuggee.after.append(lambda: self.debuggee.stopped("pause"))
        return None
