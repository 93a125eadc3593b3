"""Moves of a session. Each is a generator that gives way between slices of a run, and returns why it stopped.

A move goes from one place of the run to another and changes nothing else, so one that is dropped half-way leaves the
session at the place that it had reached.
"""

import time
from typing import Callable, Generator, Optional

from .breakpoints import PASSING, Breakpoints
from .child import Child, Place
from .code import Code

Motion = Generator[None, None, str]
# what names the part, or the piece of one, that a slot belongs to
Named = Callable[[int], Optional[str]]
# the steps of the first slice of a run, the most of one line, and the seconds that a slice is to take
FIRST_SLICE = 10_000
LONGEST_SLICE = 1_000_000
BRIEF = 0.05
# the last step of a session
LAST_STEP = 1_000_000_000
# the steps of a move by parts between two looks at the input
SINGLE_STEPS = 200
TEMPORARY = (PASSING, "")
# why a move stopped, beside the kinds of breakpoints
STEP, END, FIRST, LIMIT, DATA = "step", "end", "entry", "limit of steps", "data breakpoint"


def at_once(move: Callable[["Run"], str]) -> Callable[["Run"], Motion]:
    """A move that is done in one go, as a motion."""

    def motion(run: "Run") -> Motion:
        yield from ()
        return move(run)

    motion.__doc__ = move.__doc__
    return motion


class Run:
    """The place of a session, and the moves from there."""

    def __init__(self, child: Child, code: Code, breakpoints: Breakpoints):
        self.child = child
        self.code = code
        self.breakpoints = breakpoints
        # the references at whose making a run stops
        self.watched: set[int] = set()
        self.slice = FIRST_SLICE
        self.place = child.move("g 0")

    def move(self, line: str) -> Place:
        """Makes one line's move."""
        self.place = self.child.move(line)
        return self.place

    def records(self) -> list[str]:
        """The open local calls, the newest first."""
        return self.child.many("f")[1:]

    def has_value(self, reference: int) -> bool:
        """Whether a value has this reference at the place that is shown."""
        return self.child.ask(f"v {reference}")[0] != "? range"

    def words(self) -> dict[str, int]:
        """The words at the place, by their names."""
        found = {name: int(word, 16) for name, word in (line.split() for line in self.child.many("r"))}
        return {**found, "pc": self.place.pc, "step": self.place.step}

    def stop_here(self) -> tuple[Optional[str], list[int]]:
        """The kind of a stop at the place, `None` if no breakpoint is there that holds, and the numbers of the breakpoints."""
        return self.breakpoints.at(self.place.pc, self.words)

    def ended(self) -> Optional[str]:
        """Why no further step can be made, or `None`."""
        if not self.place.is_running:
            return END
        return LIMIT if self.place.step >= LAST_STEP else None

    @at_once
    def step(self) -> str:
        """One step on."""
        if why := self.ended():
            return why
        self.move("s 1")
        return self.ended() or STEP

    @at_once
    def step_back(self) -> str:
        """One step back."""
        if self.place.step == 0:
            return FIRST
        self.move("rs 1")
        return STEP if self.place.step else FIRST

    def proceed(self) -> Motion:
        """On to a breakpoint, the making of a watched value, or the end."""
        while not (why := self.ended()):
            missing = {one for one in self.watched if not self.has_value(one)}
            start = self.place.step
            self.slice_on()
            made = [self.made(one, start, self.place.step) for one in missing if self.has_value(one)]
            if made:
                self.move(f"g {min(made)}")
                return DATA
            kind, _ = self.stop_here()
            if kind and self.place.is_running:
                return kind
            if self.breakpoints.has_passing(self.place.pc) and self.place.is_running:
                return STEP
            yield
        return why

    def slice_on(self) -> None:
        """On by a slice, whose length goes by the time that the last one took."""
        began = time.monotonic()
        self.move(f"c {min(self.slice, LAST_STEP - self.place.step)}")
        if time.monotonic() - began < BRIEF:
            self.slice = min(2 * self.slice, LONGEST_SLICE)
        else:
            self.slice = max(self.slice // 2, 1)

    def made(self, reference: int, low: int, high: int) -> int:
        """The first step after `low` at which a value has this reference; at `high` one has. The place stays."""
        shown = self.place.step
        while high - low > 1:
            middle = (low + high) // 2
            self.child.move(f"g {middle}")
            low, high = (low, middle) if self.has_value(reference) else (middle, high)
        self.child.move(f"g {shown}")
        return high

    def reverse(self) -> Motion:
        """Back to the last breakpoint, to the instruction that makes a watched value, or to the first step."""
        shown = self.place.step
        # nothing has been placed at step 0 but the values of the start, which no step makes
        made = [self.made(one, 0, shown) - 1 for one in self.watched if self.has_value(one)]
        last = max((step for step in made if step < shown), default=0)
        self.move("rc")
        while self.place.step > last and not self.stop_here()[0]:
            yield
            self.move("rc")
        kind, _ = self.stop_here()
        if last > self.place.step or last and last == self.place.step and not kind:
            self.move(f"g {last}")
            return DATA
        return kind or FIRST

    def to(self, slot: int, depth: int) -> Motion:
        """On until `pc` is this slot with at most `depth` open calls, or to a stop before it."""
        try:
            self.breakpoints.replace(self.child, TEMPORARY, [(0, (slot,))])
            while True:
                why = yield from self.proceed()
                if self.place.pc == slot and self.place.is_running and len(self.records()) <= depth:
                    return self.stop_here()[0] or STEP
                if why != STEP:
                    return why
                yield
        finally:
            self.breakpoints.replace(self.child, TEMPORARY, [])

    def over(self) -> Motion:
        """One step on, with a local call as one step."""
        if self.place.is_running and self.code.calls_local(self.place.pc):
            return (yield from self.to(self.place.pc + 1, len(self.records())))
        return (yield from self.step())

    def out(self) -> Motion:
        """On to the end of the newest local call, or of the program."""
        records = self.records()
        if not records:
            return (yield from self.proceed())
        return (yield from self.to(int(records[0].split()[1]), len(records) - 1))

    def next_part(self, named: Named, enters: bool) -> Motion:
        """On to the first step of another part; `enters` tells whether one in a local call counts."""
        start, depth = named(self.place.pc), len(self.records())
        while not (why := self.ended()):
            for _ in range(SINGLE_STEPS):
                self.move("s 1")
                if self.ended():
                    break
                kind, _ = self.stop_here()
                if kind:
                    return kind
                part = named(self.place.pc)
                if part and part != start and (enters or len(self.records()) <= depth):
                    return STEP
            yield
        return why

    def last_part(self, named: Named) -> Motion:
        """Back to the first step of this visit of the part, or if it is shown, of the part before."""
        if self.place.step == 0:
            return FIRST
        self.move("rs 1")
        part = named(self.place.pc)
        while self.place.step:
            for _ in range(min(SINGLE_STEPS, self.place.step)):
                self.move("rs 1")
                if named(self.place.pc) != part:
                    self.move("s 1")
                    return STEP
            yield
        return FIRST
