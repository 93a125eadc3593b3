"""States and requests from a seed, and how a gatekeeper is compared on them."""

import contextlib
import io
import itertools
import subprocess
import sys
import unittest
from typing import Any
from unittest import mock

from ..clusters import large
from ..clusters.cases import Answers, Case, cases, difference, due
from ..clusters.counts import Counts
from ..clusters.making import binding, list_text, policy, request, review_text, thing
from ..commands import cluster_cases
from ..entry import ended
from ..evaluator.cluster import attributes, state
from ..seeded.numbers import Numbers
from . import cluster_stand_in
from .test_documents import Files

REVIEW = review_text(request("Node", ("", "v1", "nodes")))
ALLOWED = '{"apiVersion":"admission.k8s.io/v1","kind":"AdmissionReview","response":{"allowed":true,"uid":"u1"}}'
SPACE = thing("Namespace", "prod")


def ran(status: int, said: str = "", told: str = "") -> subprocess.CompletedProcess[bytes]:
    return subprocess.CompletedProcess([], status, said.encode(), told.encode())


class Made(unittest.TestCase):
    def test_a_seed_always_makes_the_same(self) -> None:
        first, again, other = (list(itertools.islice(cases(Numbers(seed), 3), 5)) for seed in (1, 1, 2))
        self.assertEqual(first, again)
        self.assertNotEqual(first, other)

    def test_each_kind_of_answer_is_due(self) -> None:
        counts = Counts()
        for case in itertools.islice(cases(Numbers(cluster_cases.SEED), 20), 400):
            counts.add(due(case))
        self.assertEqual(counts.never(), [])

    def test_reviews_are_lines(self) -> None:
        for case in itertools.islice(cases(Numbers(1), 20), 20):
            self.assertFalse([review for review in case.reviews if b"\n" in review])


class Compared(unittest.TestCase):
    CASE = Case([list_text([SPACE])], False, [REVIEW])

    def test_lines(self) -> None:
        wanted = due(self.CASE)
        self.assertEqual(wanted, Answers([ALLOWED]))
        self.assertIsNone(difference(self.CASE, wanted, ran(0, f"{ALLOWED}\n")))
        self.assertIsNotNone(difference(self.CASE, wanted, ran(0, f"{ALLOWED}\n", "gatekeeper: policy p, bindings b\n")))
        for status, said in [(0, "{}\n"), (0, ""), (0, ALLOWED), (0, f"{ALLOWED}\n\n"), (1, f"{ALLOWED}\n")]:
            with self.subTest(said):
                self.assertIsNotNone(difference(self.CASE, wanted, ran(status, said)))

    def test_refused_starts(self) -> None:
        wanted = due(Case([list_text([SPACE, policy(validations=[]), binding()])], False, [REVIEW]))
        self.assertEqual(wanted, Answers([], "C7 p K4", ["celbpf: C7 p K4"]))
        self.assertEqual(due(Case([list_text([SPACE]), b"["], False, [])).errors, ["celbpf: C1 state-1.json"])
        for status, said, told, fits in [
            (3, "", "celbpf: C7 p K4\n", True), (3, "", "celbpf: C7 q K4\n", False), (3, "", "celbpf: C8 p\n", False),
            (1, "", "celbpf: C7 p K4\n", False), (3, "{}\n", "celbpf: C7 p K4\n", False), (3, "", "", False),
        ]:
            with self.subTest((status, said, told)):
                self.assertEqual(difference(self.CASE, wanted, ran(status, said, told)) is None, fits)


class Large(unittest.TestCase):
    def test_the_state_that_is_measured(self) -> None:
        opened = state.opened([list_text(large.state())])
        review = {"kind": {"version": "v1", "kind": "Deployment"}, "resource": {"group": "apps", "version": "v1", "resource": "deployments"}}
        asked = attributes.of({**review, "operation": "CREATE", "object": {}, "name": "web", "namespace": "default"})
        matched = [one.name for one in opened.policies if one.constraints.answer(asked, opened.namespaces) == "yes"]
        self.assertEqual((len(opened.policies), len(opened.namespaces), len(matched)), (40, 200, 8))
        self.assertEqual(matched, [one["metadata"]["name"] for one in large.matching()[:-1]])

    def test_hostile_states_are_read(self) -> None:
        for name in ("nested", "requirements", "rules", "params"):
            with self.subTest(name):
                self.assertEqual(len(state.opened([list_text(large.HOSTILE[name]())]).policies), 1)


class Script(Files):
    def ran(self, *words: str) -> tuple[Any, ...]:
        program = self.file("gatekeeper", f"#!/bin/sh\nexec {sys.executable} -B {cluster_stand_in.__file__} {' '.join(words)} \"$@\"\n")
        program.chmod(0o755)
        given = ["cluster-cases", "--count", "6", "--seed", "1", "--reviews", "5", str(program)]
        with mock.patch.object(sys, "argv", given), contextlib.redirect_stdout(io.StringIO()) as said:
            return ended("cluster-cases", cluster_cases.main), said.getvalue()

    def test_a_gatekeeper_that_answers_as_is_due(self) -> None:
        status, said = self.ran()
        self.assertEqual((status, said.splitlines()[-1]), (0, "the gatekeeper answered 6 states as the evaluator"))

    def test_a_gatekeeper_that_answers_otherwise(self) -> None:
        status, said = self.ran("--wrong")
        self.assertEqual(status, 1)
        self.assertRegex(said, r"^state \d of seed 1 differs\nlist \{")
        # one review is enough to show it
        self.assertEqual(said.count("\nreview "), 1)
        self.assertRegex(said.replace("\n", " "), r'is  \{.*"denied":true.* due \{.*"allowed":true')
