"""The policies of examples/wide decide their tests as the evaluator does."""

import tempfile
import unittest
from pathlib import Path

from ..documents import one_in, yaml_package
from ..home import ROOT
from ..testing.answers import Asked, answer_of, failures
from ..testing.cases import Case, read
from ..wide import policies
from .wide_stand_in import answer

EXAMPLES = sorted((ROOT / "examples" / "wide").glob("*/policy.yaml"))


@unittest.skipUnless(yaml_package(), "there is no yaml")
class Examples(unittest.TestCase):
    def setUp(self) -> None:
        folder = tempfile.TemporaryDirectory()
        self.addCleanup(folder.cleanup)
        self.asked = Asked(Path(folder.name))

    def test_outcomes_and_messages(self) -> None:
        self.assertEqual(len(EXAMPLES), 12)
        for policy in EXAMPLES:
            for case in read(policy.with_name("tests.yaml")).cases:
                with self.subTest(f"{policy.parent.name}: {case.name}"):
                    self.assertEqual(self.failures(policy, case), [])

    def failures(self, policy: Path, case: Case) -> list[str]:
        """How the evaluator's answer differs from what a case wants."""
        beside = {
            f"--{key}": Path(self.asked.file(case.beside[key], case.file.parent)).read_bytes()
            for key in ("namespace", "params") if key in case.beside
        }
        line = self.asked.review(case).encode()
        return failures(case, answer_of(answer([policies.read(one_in(policy))], line, beside)))


if __name__ == "__main__":
    unittest.main()
