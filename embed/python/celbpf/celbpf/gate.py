"""Gates, and the calls that need none."""

import ctypes
import threading
from typing import Any, NamedTuple, Optional

from .library import DONE, LIBRARY, Place, called

# the steps that a policy's program may take, and the bytes that its helper calls may read together
DEFAULT_STEPS = 10_000_000
DEFAULT_READS = 16_777_216


class Response(NamedTuple):
    """A decision: whether the request is allowed, and the response, an AdmissionReview in JSON."""

    allowed: bool
    json: bytes


def documents(*given: Optional[bytes]) -> list:
    """Each document and its size, as the library takes them. No bytes stand for none."""
    return [word for document in given for word in (document or b"", len(document or b""))]


class Gate:
    """A policy that is compiled once. Calls on one gate wait for one another; other threads run meanwhile."""

    def __init__(self, policy: bytes, profile: bool = False):
        """Compiles a ValidatingAdmissionPolicy, which is read as clusters store it, or with `profile` as the program celbpf
        reads it. Raises `Refused`."""
        self._place = Place()
        self._lock = threading.Lock()
        make = LIBRARY.celbpf_gate_new_checked if profile else LIBRARY.celbpf_gate_new_wide_checked
        called(lambda *room: make(ctypes.byref(self._place), *documents(policy), *room))

    def decide(
        self,
        review: bytes,
        namespace: Optional[bytes] = None,
        params: Optional[bytes] = None,
        steps: int = DEFAULT_STEPS,
        reads: int = DEFAULT_READS,
    ) -> Response:
        """Decides an AdmissionReview. Raises `Refused`, which is no decision."""
        given = documents(review, namespace, params)
        with self._lock:
            status, text = called(
                lambda *room: LIBRARY.celbpf_gate_decide_within_checked(ctypes.byref(self._place), *given, steps, reads, *room)
            )
        return Response(status == DONE, text)

    def close(self) -> None:
        """Frees the gate. A second call does nothing."""
        with self._lock:
            LIBRARY.celbpf_gate_free(ctypes.byref(self._place))

    def __enter__(self) -> "Gate":
        return self

    def __exit__(self, *_: Any) -> None:
        self.close()

    def __del__(self) -> None:
        if hasattr(self, "_lock"):
            self.close()


def review(
    policy: bytes,
    document: bytes,
    namespace: Optional[bytes] = None,
    params: Optional[bytes] = None,
    steps: int = DEFAULT_STEPS,
    reads: int = DEFAULT_READS,
    profile: bool = False,
) -> Response:
    """Decides a review under a policy that is compiled for this call alone, and read as `Gate` reads it. Raises `Refused`."""
    given = documents(policy, document, namespace, params)
    decide = LIBRARY.celbpf_review_within_checked if profile else LIBRARY.celbpf_review_wide_checked
    status, text = called(lambda *room: decide(*given, steps, reads, *room))
    return Response(status == DONE, text)


def compile_policy(policy: bytes) -> bytes:
    """Compiles a policy to the file of its image, as `celbpf compile` does, for `celbpf debug`. Raises `Refused`."""
    return called(lambda *room: LIBRARY.celbpf_compile_checked(*documents(policy), *room))[1]
