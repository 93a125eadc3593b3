"""Why there is no decision."""

import enum


class Status(enum.IntEnum):
    """What came of a call of the library, as `celbpf.h` lists them."""

    POLICY_UNREAD = 2
    POLICY_UNCOMPILED = 3
    REVIEW_REFUSED = 4
    DOCUMENT_REFUSED = 5
    OUT_OF_STEPS = 6
    OVER_LIMIT = 7
    NO_MEMORY = 9
    CLOSED = 10
    SMALL_STACK = 11
    OUT_OF_READS = 12


TEXTS = {
    Status.POLICY_UNREAD: "the document is not a policy",
    Status.POLICY_UNCOMPILED: "the policy is not compiled",
    Status.REVIEW_REFUSED: "the review is refused",
    Status.DOCUMENT_REFUSED: "the namespace or the params are refused",
    Status.OUT_OF_STEPS: "the policy's program has not ended",
    Status.OVER_LIMIT: "the policy's program was stopped",
    Status.NO_MEMORY: "out of memory",
    Status.CLOSED: "the gate is closed",
    Status.SMALL_STACK: "no stack to compile a policy",
    Status.OUT_OF_READS: "the policy's program has read too much",
}


class Refused(Exception):
    """There is no gate, or no decision. `line` is what the program gatekeeper prints, or celbpf for the profile, or
    empty if they print nothing."""

    def __init__(self, status: Status, line: str):
        super().__init__(f"{line or 'celbpf'}: {TEXTS[status]}")
        self.status = status
        self.line = line
