"""How the WebAssembly module is made, and what its answers are compared with."""

import json
import os
import tempfile
import unittest
from pathlib import Path
from typing import Any
from unittest import mock

from ..home import EXAMPLES
from ..quick.halves import Differs
from ..wasm import cases, engines, hostile, linking, making, modules, proved, unproved

PLAIN = '"no-builtin-bcmp" "no-builtin-memcmp" "no-builtin-strlen" "target-cpu"="lime1"'
PROGRAM = """@static.0 = private unnamed_addr constant [20 x i8] c"@\\22a::celbpf_page_x\\22(", align 1

define dso_local i32 @main() #0 {
  call void @"celbpf_page::main"()
  ret i32 0
}

define internal void @"celbpf_page::main"() #0 {
  %1 = alloca i32, align 4
  call void @llvm.memset.p0.i64(ptr %1, i8 -86, i64 4, i1 false)
  %2 = call i32 @"celbpf_page::calls::celbpf_page_version"()
  ret void
}

define internal noundef i32 @"celbpf_page::calls::celbpf_page_version"() #0 {
  ret i32 1
}
"""
LIBRARY = """@static.0 = private unnamed_addr constant [20 x i8] c"@\\22a::celbpf_page_x\\22(", align 1


define internal void @"celbpf_page::main"() #0 {
  %1 = alloca i32, align 4
  %2 = call i32 @celbpf_page_version()
  ret void
}

define noundef i32 @celbpf_page_version() #0 {
  ret i32 1
}
"""
CALLS = """//! Calls.
#[unsafe(no_mangle)]
pub extern "C" fn celbpf_page_list(
    alloc: Global,
    image: &[u8],
    room: &mut [u8],
    len: &mut usize,
) -> u32
    ensures { length room.new ≡ length room.old }
{
    helped(alloc, image, room, len)
}

fn helped(alloc: Global) {}
"""
ROOT = '//! Calls.\nmod calls;\n\n#[unsafe(no_mangle)]\npub extern "C" fn celbpf_page_version() -> u32 {\n    1\n}\n'
CRATES = "low: memchr\nmid: low json\ncelbpf_page staticlib: core mid json\n"


class Lines(unittest.TestCase):
    ROWS = [
        ("layout", 'target datalayout = "e-m:e-p270:32:32-S128"\n', f'target datalayout = "{modules.LAYOUT}"\n'),
        ("triple", 'target triple = "x86_64-unknown-linux-gnu"\n', 'target triple = "wasm64-unknown-unknown"\n'),
        (
            "attributes of a function",
            'attributes #0 = { nounwind "probe-stack"="inline-asm" "stack-probe-size"="3072" "target-cpu"="x86-64" }\n',
            f"attributes #0 = {{ nounwind {PLAIN} }}\n",
        ),
        (
            "of a run with checks",
            'attributes #1 = { nounwind sanitize_address "frame-pointer"="all" "target-cpu"="x86-64" }\n',
            f"attributes #1 = {{ nounwind {PLAIN} }}\n",
        ),
        ("of nothing else", 'attributes #8 = { sanitize_address "frame-pointer"="all" }\n', "attributes #8 = { nounwind }\n"),
        ("of what is declared", "attributes #2 = { nobuiltin nounwind }\n", "attributes #2 = { nobuiltin nounwind }\n"),
        ("a fence", '  call void asm sideeffect "", "~{memory}"()\n', '  call void asm sideeffect "", "~{memory}"()\n'),
        ("a text", '@s = constant [9 x i8] c" asm llvm"\n', '@s = constant [9 x i8] c" asm llvm"\n'),
        ("code", "  %r1 = add i64 %r0, 1\n", "  %r1 = add i64 %r0, 1\n"),
    ]
    FOREIGN = [
        ("an instruction", "  %1 = call <16 x i8> @llvm.x86.ssse3.pshuf.b.128(<16 x i8> %0, <16 x i8> %0)\n"),
        ("assembly of a module", 'module asm ".globl f"\n'),
        ("assembly in a function", '  call void asm sideeffect "pause", ""()\n'),
    ]

    def test_lines(self) -> None:
        for name, line, wanted in self.ROWS:
            with self.subTest(name):
                self.assertEqual(list(modules.for_wasm([line])), [wanted])

    def test_code_for_another_machine_is_refused(self) -> None:
        for name, line in self.FOREIGN:
            with self.subTest(name), self.assertRaises(Differs):
                list(modules.for_wasm([line]))

    def test_calls_of_a_program(self) -> None:
        self.assertEqual("".join(modules.calls_of_program(PROGRAM.splitlines(keepends=True))), LIBRARY)


class Sources(unittest.TestCase):
    def setUp(self) -> None:
        folder = tempfile.TemporaryDirectory()
        self.addCleanup(folder.cleanup)
        self.root = Path(folder.name, "root")
        self.crate = self.root / "crates" / "celbpf_page"
        (self.crate / "src").mkdir(parents=True)
        (self.root / "crates" / "low" / "src").mkdir(parents=True)
        (self.root / "crates.txt").write_text(CRATES)
        (self.crate / "src" / "lib.rt").write_text(ROOT)
        (self.crate / "src" / "calls.rt").write_text(CALLS)

    def test_a_program_makes_each_call(self) -> None:
        made = unproved.program_of(self.crate, self.root.parent / "made")
        self.assertFalse((made / "src" / "lib.rt").exists())
        self.assertTrue((made.parent / "low" / "src").is_dir())
        text = (made / "src" / "main.rt").read_text()
        self.assertTrue(text.startswith(ROOT))
        self.assertIn('    calls::celbpf_page_list(alloc, b"", &mut room, &mut len);\n    celbpf_page_version();\n}\n', text)
        self.assertNotIn("helped", text)

    def test_a_parameter_of_another_type(self) -> None:
        (self.crate / "src" / "calls.rt").write_text(CALLS.replace("image: &[u8]", "image: &Image"))
        with self.assertRaisesRegex(Differs, "celbpf_page_list has a parameter of the type &Image"):
            list(unproved.calls_in(self.crate / "src"))

    def test_words_of_the_proved_library(self) -> None:
        found = " ".join(map(str, proved.words_of(self.crate, Path("/kit")))).replace(f"{self.root}/", "")
        self.assertEqual(
            found,
            "--crate-name celbpf_page src/lib.rt --extern std=/kit/rlibs/std.rlib --extern core=/kit/rlibs/core.rlib"
            " --extern mid=crates/mid/out/rlib/mid.rlib --extern json=/kit/rlibs/json.rlib -L dependency=/kit/rlibs"
            " -L dependency=crates/low/out/rlib -L dependency=crates/mid/out/rlib --links celbpf_page= --links low= --links mid="
            " --antt-project /kit/rattle/logic/antt-project.json --logic-built /kit/logic_built",
        )

    def test_the_calls_are_those_that_c_exports(self) -> None:
        text = (linking.EMBED / "calls.c").read_text()
        for name in ("review", "translate", "compile", "list", "debug", "version"):
            self.assertIn(f'EXPORT("celbpf_page_{name}")\nu32 {name}(', text)


class Lowering(unittest.TestCase):
    ROWS = [("Debian 12's", "wasm-opt version 108", False), ("a newer one", "wasm-opt version 131 (version_131)", True), ("no number", "", False)]

    def test_versions(self) -> None:
        for name, said, is_taken in self.ROWS:
            with self.subTest(name), tempfile.TemporaryDirectory() as folder:
                stand_in(Path(folder, "wasm-opt"), f"echo '{said}'")
                with mock.patch.dict(os.environ, {"PATH": f"{folder}:{os.environ['PATH']}"}):
                    self.assertEqual(linking.lowering() is not None, is_taken)

    def test_none(self) -> None:
        with tempfile.TemporaryDirectory() as folder, mock.patch.dict(os.environ, {"PATH": folder}):
            self.assertIsNone(linking.lowering())


class Making(unittest.TestCase):
    def test_what_it_is_made_from(self) -> None:
        asked = mock.Mock(stdout="all compiled toolchain of today\n")
        with mock.patch("subprocess.run", return_value=asked):
            proved_one, unproved_one = (making.made_from(is_quick) for is_quick in (False, True))
        self.assertRegex(proved_one, "^all [0-9a-f]{64} toolchain of today\n$")
        self.assertEqual(unproved_one, proved_one.replace("all", "compiled"))

    def test_places(self) -> None:
        self.assertEqual([making.place(is_quick).name for is_quick in (False, True)], ["wasm", "quick"])


def stand_in(path: Path, script: str) -> None:
    path.write_text(f"#!/bin/sh\n{script}\n")
    path.chmod(0o755)


class Engines(unittest.TestCase):
    NODE = """case $1:$2 in
--version:*) echo v20.0.0 ;;
*:--wide) echo %s ;;
*:*celbpf.wasm) echo all passed ;;
*) echo other: wanted 0, got 1 >&2; echo 5 passed; exit 1 ;;
esac"""
    FORMS = [Path("a/celbpf.wasm"), Path("a/celbpf32.wasm")]

    def told(self, path: str) -> list[Any]:
        with mock.patch.dict(os.environ, {"PATH": path}):
            return list(engines.in_node(self.FORMS, Path("cases.json")))

    def test_node(self) -> None:
        rows = [
            ("true", (True, "Node v20.0.0, celbpf.wasm: all passed")),
            ("false", (True, "Node v20.0.0, celbpf.wasm: left out, since it has no wide memory")),
        ]
        for wide, wanted in rows:
            with self.subTest(wide), tempfile.TemporaryDirectory() as folder:
                stand_in(Path(folder, "node"), self.NODE % wide)
                lowered = (False, "Node v20.0.0, celbpf32.wasm: other: wanted 0, got 1\n5 passed")
                self.assertEqual(self.told(folder), [wanted, lowered])

    def test_an_old_node_is_not_wide(self) -> None:
        with tempfile.TemporaryDirectory() as folder:
            stand_in(Path(folder, "node"), "exit 1")
            self.assertFalse(engines.is_wide(f"{folder}/node"))

    def test_no_node(self) -> None:
        with tempfile.TemporaryDirectory() as folder:
            self.assertEqual(self.told(folder), [(True, "Node: left out, since there is no command node")])


class Cases(unittest.TestCase):
    STATUSES = [
        ("K2", 2), ("K3 auditAnnotations", 2), ("K8 validation 0", 2), ("K6 validation 0 W5 url", 3), ("K7 condition 0", 3),
        ("K9 validation 0", 3), ("N2", 4), ("N3", 5), ("N4", 6), ("N5", 7), ("N7", 12),
        ("L1", 13),
    ]

    def test_statuses(self) -> None:
        for cause, wanted in self.STATUSES:
            with self.subTest(cause):
                self.assertEqual(cases.status_of(f"celbpf: {cause}\n"), wanted)

    def test_a_case(self) -> None:
        made = cases.case("responses", "a", "review", [b"p", b"r", None, b""], 1, b"text")
        self.assertEqual(made["documents"], ["cA==", "cg==", "", ""])
        self.assertEqual((made["call"], made["numbers"]), ("celbpf_page_review", ["10000000", "16777216"]))
        self.assertEqual(cases.case("images", "a", "compile", [b"p"], 0, b"")["numbers"], [])

    def test_answers_of_programs(self) -> None:
        rows = [
            ("allowed", 'echo \'{"response":{"allowed":true}}\'', (0, b'{"response":{"allowed":true}}')),
            ("denied", 'echo \'{"response":{"allowed":false}}\'', (1, b'{"response":{"allowed":false}}')),
            ("refused", 'echo \'{"refused":"N4"}\'', (6, b"celbpf: N4\n")),
            ("a policy that is refused", 'echo "celbpf: $2: K6 validation 0 W5 url" >&2; exit 3', (3, b"celbpf: K6 validation 0 W5 url\n")),
        ]
        for name, script, wanted in rows:
            with self.subTest(name), tempfile.TemporaryDirectory() as folder:
                program = Path(folder, "gatekeeper")
                stand_in(program, f"cat >/dev/null; {script}")
                programs = cases.Programs(program, program, Path(folder))
                self.assertEqual(programs.decided(b"{}", b"{}", None, None), wanted)

    def test_hostile(self) -> None:
        found = list(hostile.hostile())
        self.assertEqual(len({one.name for one in found}), len(found))
        self.assertEqual(hostile.loops(2).count(".all("), 2)
        wanted = json.loads((EXAMPLES / "replicas" / "policy.json").read_text())["kind"]
        self.assertEqual(json.loads(found[0].policy)["kind"], wanted)
