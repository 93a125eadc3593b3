"""Man pages of pages and of vapctl, and what a package says of itself."""

import re
import subprocess
import sys
import tempfile
import unittest
from pathlib import Path

from ..entry import Stop
from ..home import ROOT, is_checkout
from ..packaging import archives, manual
from ..packaging.checking import text_faults
from ..packaging.commands_manual import of_parser
from ..packaging.completion import COMMANDS, bash, zsh
from ..packaging.manual import escaped
from ..packaging.pages import linked, renamed, without_sections
from ..packaging.rooted import contents
from ..packaging.tree import put_modules
from ..vapctl.commands import WHATS
from ..vapctl.main import parser

PAGE = """# Title

A first - line with `code`,
and [a link](B.md).

## A part

| Key | Is |
|---|---|
| `a` | one \\| two |

- an item
  that goes on

    a block
    .dot

The end."""


# imports each module that is there
IMPORTS = """import importlib, pkgutil, sys
sys.path.insert(0, sys.argv[1])
import celbpf_tools
for one in pkgutil.walk_packages(celbpf_tools.__path__, "celbpf_tools."):
    importlib.import_module(one.name)
"""


class Modules(unittest.TestCase):
    def test_each_has_what_it_imports(self) -> None:
        with tempfile.TemporaryDirectory() as name:
            put_modules(Path(name))
            words = [sys.executable, "-B", "-c", IMPORTS, str(Path(name) / "lib" / "celbpf")]
            ran = subprocess.run(words, cwd=name, capture_output=True, text=True, check=False)
        self.assertEqual((ran.returncode, ran.stderr), (0, ""))


class Manual(unittest.TestCase):
    def test_a_page(self) -> None:
        lines = manual.of_page("name", "what it is", PAGE, "1").splitlines()
        self.assertEqual(lines[2:5], [".SH NAME", "name \\- what it is", ".SH DESCRIPTION"])
        self.assertEqual(lines[5:], [
            ".PP", "A first \\- line with \\fBcode\\fR, and a link.", ".SH A PART", ".TP", "\\fBa\\fR", "one | two", ".PP",
            ".IP \\(bu 2", "an item that goes on", ".PP", ".RS 4", ".nf", "a block", "\\&.dot", ".fi", ".RE", ".PP", "The end.",
        ])

    def test_a_program_with_subcommands(self) -> None:
        lines = of_parser("vapctl", parser("vapctl"), "1", "## Tests\n\nMore of it.").splitlines()
        self.assertIn("vapctl \\- checks, tests and explains ValidatingAdmissionPolicies without a cluster", lines)
        heads = [line.removeprefix(".SH ") for line in lines if line.startswith(".SH ")]
        self.assertEqual(heads, ["NAME", "SYNOPSIS", "STATUS", *(escaped(name.upper()) for name in WHATS), "TESTS"])
        self.assertEqual(lines[-2:], [".PP", "More of it."])
        at = lines.index(".SH LINT")
        option = lines.index("\\fB\\-o FORM[=FILE], \\-\\-output FORM[=FILE]\\fR", at)
        self.assertTrue(lines[option + 1].startswith("the form of the report"))

    def test_names_as_installed(self) -> None:
        for text, named in [
            ("`./celbpf a`", "`celbpf a`"), ("./vapctl why <examples/b", "vapctl why </usr/share/doc/celbpf/examples/b"),
            ("`tools/measure 1` takes", "`measure 1` of the repository takes"), ("cd ../examples", "cd ../examples"),
            ("in PREFIX/share/celbpf", "in /usr/share/celbpf"),
        ]:
            with self.subTest(text):
                self.assertEqual(renamed(text), named)


class Package(unittest.TestCase):
    @unittest.skipUnless(is_checkout(), "the sources are in the repository")
    def test_version(self) -> None:
        self.assertRegex(archives.version_of(), r"^0\.20\d{6}$")
        # the date of the newest changes, which `./gatekeeper --version` prints
        dates = [line[3:] for line in (ROOT / "CHANGELOG.md").read_text().splitlines() if line.startswith("## ")]
        self.assertEqual(archives.version_of(), f"0.{dates[0].replace('-', '')}")
        with tempfile.TemporaryDirectory() as folder:
            program = Path(folder, "gatekeeper")
            for said, why in [("gatekeeper 0.1", "is gatekeeper 0.1"), ("", "is of no version")]:
                program.write_text(f"#!/bin/sh\necho '{said}'\n")
                program.chmod(0o755)
                with self.subTest(said), self.assertRaisesRegex(Stop, why):
                    archives.checked_version(program)

    def test_the_c_library_that_programs_need(self) -> None:
        with tempfile.TemporaryDirectory() as folder:
            path = Path(folder, "program")
            path.write_bytes(b"..GLIBC_2.4\0GLIBC_2.34\0..")
            self.assertEqual(archives.libc_of([path]), "libc6 (>= 2.34)")
            path.write_bytes(b"static")
            self.assertEqual(archives.libc_of([path]), "libc6")

    @unittest.skipUnless(is_checkout(), "the help text is in the repository")
    def test_completion(self) -> None:
        ran = subprocess.run(["bash", "-n"], input=bash(), text=True, capture_output=True, check=False)
        self.assertEqual((ran.returncode, ran.stderr), (0, ""))
        self.assertTrue(zsh().startswith("#compdef celbpf gatekeeper vapctl kubectl-vap\n"))
        for text in (bash(), zsh()):
            words = "--help --cluster --old --namespace --user --group --operation --skip-unknown --allow-empty"
            self.assertIn(f"'vapctl as-reviews') echo '{words}'", text)
            self.assertIn("    vapctl) echo 'check audit state test reviews why debug lint compile translate as-reviews asm' ;;", text)
            self.assertIn("'kubectl-vap state') echo '--help --from --to --partial --context --kubeconfig --kubectl' ;;", text)
            self.assertRegex(text, "gatekeeper\\) echo '--policy .*--cluster --partial --leave-messages --translate --help --version'")

    @unittest.skipUnless(is_checkout(), "the pages are in the repository")
    def test_completion_has_the_commands_of_the_page(self) -> None:
        rows = re.findall(r"^\| `([a-z-]+) ([^`]*)` \|", (ROOT / "docs" / "COMMANDS.md").read_text(), re.MULTILINE)
        shown = {name: set(re.findall(r"--[a-z]+", words)) for name, words in rows}
        self.assertEqual({name: set(words.split()) for name, words in COMMANDS.items()}, shown)

    @unittest.skipUnless(is_checkout(), "the pages are in the repository")
    def test_a_page_as_installed(self) -> None:
        page = "[A](CEL.md#b), [B](PROOFS.md), [C](../embed/c/celbpf.h)\n| [D](PROOFS.md) |\n| [E](CEL.md) |"
        self.assertEqual(list(linked("docs/CLUSTER.md", page)), [
            "[A](CEL.md#b), B (in the repository), `/usr/include/celbpf.h`", "| [E](CEL.md) |",
        ])
        self.assertEqual(without_sections("# T\n\n## A\n\na\n\n## B\n\nb\n", ("A",)), "# T\n\n## B\n\nb\n")

    def test_links_that_lead_to_nothing(self) -> None:
        with tempfile.TemporaryDirectory() as folder:
            Path(folder, "A.md").write_text("# A `b`\n[x](A.md#a-b) [y](#c) [z](B.md) [w](http://a)\nrun tools/x or ./y, ../z\nin this repository\ninto PREFIX/lib")
            found = [line.removeprefix(f"{folder}/A.md: ") for line in text_faults(Path(folder))]
            self.assertEqual(found, ["run tools/x or ./y, ../z", "in this repository", "into PREFIX/lib", "#c leads to nothing", "B.md# leads to nothing"])

    def test_contents_of_a_root(self) -> None:
        with tempfile.TemporaryDirectory() as folder:
            root = Path(folder)
            for name in ("usr/bin", "var/lib/dpkg/info", "var/log"):
                (root / name).mkdir(parents=True)
            (root / "usr" / "bin" / "a").write_text("a")
            before = contents(root)
            self.assertEqual(sorted(before), ["usr", "usr/bin", "usr/bin/a", "var", "var/lib"])
            (root / "var" / "lib" / "dpkg" / "info" / "list").write_text("of dpkg")
            self.assertEqual(contents(root), before)
            (root / "usr" / "bin" / "a").chmod(0o700)
            (root / "usr" / "bin" / "b").symlink_to("a")
            after = contents(root)
            self.assertEqual({path for path in after if after[path] != before.get(path)}, {"usr/bin/a", "usr/bin/b"})
