"""Tests of building the library for other languages, from a stand-in for the proved one."""

import shutil
import subprocess
import tempfile
import unittest
from pathlib import Path
from typing import Any

from ..embedding.building import installed, made, needed
from ..embedding.callers import missing, run
from ..entry import Stop

# the functions that embed/c calls, the heap's that the library calls, and one that is not of the interface
STAND_IN = """
#include <stdint.h>
#include <stddef.h>
void *rattle_alloc(size_t size, size_t align);
void *other(void) { return rattle_alloc(1, 1); }
uint32_t celbpf_gate_new(void) { return other() != 0; }
uint32_t celbpf_gate_new_wide(void) { return 0; }
uint32_t celbpf_gate_decide(void) { return 0; }
uint32_t celbpf_gate_decide_within(void) { return 0; }
void celbpf_gate_free(void) {}
uint32_t celbpf_review(void) { return 0; }
uint32_t celbpf_review_within(void) { return 0; }
uint32_t celbpf_review_wide(void) { return 0; }
uint32_t celbpf_compile(void) { return 0; }
"""


def names(*words: Any) -> set[Any]:
    """The global names that nm lists."""
    listed = subprocess.run(["nm", "--defined-only", "--extern-only", *words], capture_output=True, text=True, check=True).stdout
    return {line.split()[-1] for line in listed.splitlines() if len(line.split()) == 3}


@unittest.skipUnless(shutil.which("cc") and shutil.which("objcopy"), "there is no compiler")
class Building(unittest.TestCase):
    def setUp(self) -> None:
        made_here = tempfile.TemporaryDirectory()
        self.addCleanup(made_here.cleanup)
        self.folder = Path(made_here.name)
        source = self.folder / "stand_in.c"
        source.write_text(STAND_IN)
        subprocess.run(["cc", "-fPIC", "-c", source, "-o", self.folder / "stand_in.o"], check=True)
        subprocess.run(["ar", "rcs", self.folder / "stand_in.a", self.folder / "stand_in.o"], check=True)
        made(self.folder / "stand_in.a", self.folder / "dist")

    def test_names(self) -> None:
        calls = ("gate_new", "gate_new_wide", "gate_decide", "gate_decide_within", "gate_free")
        alone = ("review", "review_within", "review_wide", "compile")
        wanted = {"celbpf_stack_left"} | {f"celbpf_{call}{form}" for call in (*calls, *alone) for form in ("", "_checked")}
        library = self.folder / "dist" / "lib"
        self.assertEqual(names(library / "libcelbpf.a"), wanted)
        self.assertEqual(names("-D", library / "libcelbpf.so"), wanted)
        self.assertNotIn("@", (library / "pkgconfig" / "celbpf.pc").read_text())

    def test_install(self) -> None:
        prefix = self.folder / "usr"
        installed(self.folder / "dist", prefix)
        installed(self.folder / "dist", prefix)
        found = {str(path.relative_to(prefix)) for path in prefix.rglob("*") if path.is_file()}
        for name in ("include/celbpf.h", "lib/libcelbpf.a", "lib/pkgconfig/celbpf.pc", "share/celbpf/go/celbpf/celbpf.go"):
            self.assertIn(name, found)
        self.assertTrue((prefix / "lib" / "libcelbpf.so").is_symlink())


class Running(unittest.TestCase):
    def test_missing(self) -> None:
        self.assertIsNone(missing("sh"))
        self.assertEqual(missing("sh", "no-such"), "left out, since there is no command no-such")
        with self.assertRaises(Stop) as caught:
            needed("no-such")
        self.assertEqual(caught.exception.status, 10)

    def test_run(self) -> None:
        here = Path()
        self.assertEqual(run("it", ["sh", "-c", "echo a; echo b"], here), (True, "it passed: b"))
        self.assertEqual(run("it", ["true"], here), (True, "it passed"))
        self.assertEqual(run("it", ["sh", "-c", "echo a; exit 4"], here), (False, "it failed with status 4:\na\n"))


if __name__ == "__main__":
    unittest.main()
