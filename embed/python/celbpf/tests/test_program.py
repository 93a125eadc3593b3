"""Images and refusals are those of the program `celbpf` that the environment's CELBPF_PROGRAM names."""

import os
import subprocess
import tempfile
import unittest
from pathlib import Path

from celbpf import Gate, Refused, compile_policy

from .test_celbpf import EXAMPLES

PROGRAM = os.environ.get("CELBPF_PROGRAM")
POLICY = '{"apiVersion":"admissionregistration.k8s.io/v1","kind":"ValidatingAdmissionPolicy","spec":%s}'
EXPRESSION = '{"validations":[{"expression":"%s"}]}'
REFUSED = [
    "[", "{}", POLICY % "{}", POLICY % '{"validations":[]}', POLICY % '{"validations":[{"expression":"true","message":"a\\nb"}]}',
    *(POLICY % (EXPRESSION % text) for text in ("object.", "a # b", "x", "'a' + 1", "has(object)", "1", "9223372036854775808 == 1")),
    POLICY % '{"variables":[{"name":"v","expression":"1 +"}],"validations":[{"expression":"true"}]}',
    POLICY % '{"validations":[{"expression":"true","messageExpression":"2"}]}',
]


def compiled(policy: bytes) -> tuple:
    """The image that the program makes, and its line of standard error."""
    with tempfile.TemporaryDirectory() as folder:
        given, image = Path(folder, "policy.json"), Path(folder, "image")
        given.write_bytes(policy)
        ran = subprocess.run([PROGRAM, "compile", given, image], capture_output=True, check=False)
        return (b"" if ran.returncode else image.read_bytes()), ran.stderr.decode().rstrip("\n")


@unittest.skipUnless(PROGRAM, "CELBPF_PROGRAM names no program")
class Program(unittest.TestCase):
    def test_images(self) -> None:
        for path in EXAMPLES.glob("*/policy.json"):
            with self.subTest(path.parent.name):
                self.assertEqual(compile_policy(path.read_bytes()), compiled(path.read_bytes())[0])

    def test_refusals(self) -> None:
        for text in REFUSED:
            for call in (lambda policy: Gate(policy, profile=True), compile_policy):
                with self.subTest(text), self.assertRaises(Refused) as caught:
                    call(text.encode())
                self.assertEqual(caught.exception.line, compiled(text.encode())[1])
                self.assertNotEqual(caught.exception.line, "")
