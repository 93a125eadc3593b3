"""Tests on the repository's examples. They need the shared library."""

import os
import threading
import unittest
from pathlib import Path
from typing import Iterator, Optional, Tuple

from celbpf import Gate, Refused, Response, Status, compile_policy, review

EXAMPLES = Path(os.environ.get("CELBPF_EXAMPLES") or Path(__file__).parents[4] / "examples" / "policies")


# an optional, and a function that has no translation
HEAD = b'{"apiVersion":"admissionregistration.k8s.io/v1","kind":"ValidatingAdmissionPolicy","spec":{"validations":['
# they take the most stack, in either language: they have too many nodes, and the last is too deep
HOSTILE = HEAD + b'{"expression":"' + b"!" * 4095 + b'true"}]}}'
WIDE_HOSTILE = HEAD + b'{"expression":"object' + b".a" * 511 + b'"}]}}'
TOO_DEEP = HEAD + b'{"expression":"object' + b".a" * 2044 + b'"}]}}'
OPTIONAL = HEAD + b'{"expression":"object.?spec.?replicas.orValue(1) <= 3"}]}}'
UNKNOWN = HEAD + b"{\"expression\":\"url('a')\"}]}}"
REVIEW = (
    b'{"apiVersion":"admission.k8s.io/v1","kind":"AdmissionReview","request":{"uid":"u","object":{"spec":{"replicas":%d}}}}'
)


def first(*paths: Path) -> Optional[bytes]:
    return next((path.read_bytes() for path in paths if path.exists()), None)


def cases() -> Iterator[Tuple[Path, bytes, tuple, Response]]:
    """The folder, the policy, the documents and the response of each example."""
    for path in sorted(EXAMPLES.glob("*/*.review.json")):
        folder, stem = path.parent, path.name.removesuffix(".review.json")
        given = [first(folder / f"{stem}.{kind}.json", folder / f"{kind}.json") for kind in ("namespace", "params")]
        wanted = (folder / f"{stem}.response.json").read_bytes().removesuffix(b"\n")
        response = Response(b'"allowed":true' in wanted, wanted)
        yield folder, (folder / "policy.json").read_bytes(), (path.read_bytes(), *given), response


class Examples(unittest.TestCase):
    def test_every_response(self) -> None:
        count = 0
        for folder, policy, given, wanted in cases():
            for profile in (False, True):
                with self.subTest(folder.name, profile=profile), Gate(policy, profile) as gate:
                    self.assertEqual(gate.decide(*given), wanted)
                    self.assertEqual(review(policy, *given, profile=profile), wanted)
            count += 1
        self.assertGreater(count, 0)
        print(f"{count} reviews")

    def test_threads(self) -> None:
        gates = {folder: Gate(policy) for folder, policy, _, _ in cases()}
        wrong: list = []

        def work() -> None:
            wrong.extend(folder for folder, _, given, wanted in cases() if gates[folder].decide(*given) != wanted)

        threads = [threading.Thread(target=work) for _ in range(8)]
        for thread in threads:
            thread.start()
        for thread in threads:
            thread.join()
        self.assertEqual(wrong, [])


class Edges(unittest.TestCase):
    def setUp(self) -> None:
        _, self.policy, self.given, self.wanted = next(cases())

    def refused(self, status: Status, line: str, call, *words, **names) -> None:
        with self.assertRaises(Refused) as caught:
            call(*words, **names)
        self.assertEqual((caught.exception.status, caught.exception.line), (status, line))

    def test_refusals(self) -> None:
        self.refused(Status.POLICY_UNREAD, "celbpf: K1", Gate, b"")
        self.refused(Status.POLICY_UNREAD, "celbpf: K2", compile_policy, b"{}")
        self.refused(Status.POLICY_UNREAD, "celbpf: K2", review, b"[]", self.given[0])
        self.refused(Status.POLICY_UNREAD, "celbpf: N1 K2", review, b"[]", self.given[0], profile=True)
        gate = Gate(self.policy)
        self.refused(Status.REVIEW_REFUSED, "celbpf: N2", gate.decide, b"{")
        self.refused(Status.DOCUMENT_REFUSED, "celbpf: N3", gate.decide, self.given[0], params=b"[")
        self.refused(Status.OUT_OF_STEPS, "celbpf: N4", gate.decide, self.given[0], steps=1)
        self.refused(Status.OUT_OF_READS, "celbpf: N7", gate.decide, self.given[0], reads=0)
        self.refused(Status.OUT_OF_READS, "celbpf: N7", review, self.policy, self.given[0], reads=0)
        self.assertEqual(gate.decide(*self.given), self.wanted)
        gate.close()
        gate.close()
        self.refused(Status.CLOSED, "", gate.decide, self.given[0])

    def test_wide(self) -> None:
        with Gate(OPTIONAL) as gate:
            self.assertTrue(gate.decide(REVIEW % 3).allowed)
            denied = gate.decide(REVIEW % 4)
        self.assertEqual(denied, review(OPTIONAL, REVIEW % 4))
        self.assertIn(b'"message":"failed expression: object.?spec.?replicas.orValue(1) <= 3"', denied.json)
        for call in (Gate, lambda policy, **names: review(policy, REVIEW % 4, **names)):
            self.refused(Status.POLICY_UNCOMPILED, "celbpf: K6 validation 0 W5 url", call, UNKNOWN)
        self.refused(Status.POLICY_UNCOMPILED, "celbpf: K6 validation 0 P4 at 7", Gate, OPTIONAL, profile=True)
        self.refused(Status.POLICY_UNCOMPILED, "celbpf: N1 K6 validation 0 P4 at 7", review, OPTIONAL, REVIEW % 4, profile=True)

    def test_a_long_line(self) -> None:
        name = b"a" * 5000
        policy = HEAD + b'{"expression":"' + name + b'"}]}}'
        for call in (Gate, lambda policy: review(policy, REVIEW % 4)):
            self.refused(Status.POLICY_UNCOMPILED, f"celbpf: K6 validation 0 W5 {name.decode()}", call, policy)

    def test_image(self) -> None:
        self.assertTrue(compile_policy(self.policy).startswith(b"CELBPF02"))

    def test_small_stack(self) -> None:
        seen: list = []

        def work() -> None:
            for call in (
                lambda: Gate(HOSTILE, profile=True),
                lambda: compile_policy(HOSTILE),
                lambda: Gate(WIDE_HOSTILE),
                lambda: Gate(TOO_DEEP),
            ):
                try:
                    call()
                except Refused as refused:
                    seen.append((refused.status, refused.line))

        before = threading.stack_size(1 << 20)
        thread = threading.Thread(target=work)
        thread.start()
        thread.join()
        threading.stack_size(before)
        lines = ["celbpf: G3"] * 3 + ["celbpf: K6 validation 0 W10"]
        self.assertEqual(seen, [(Status.POLICY_UNCOMPILED, line) for line in lines])


if __name__ == "__main__":
    unittest.main()
