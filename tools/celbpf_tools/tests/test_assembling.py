"""The friendlier text of programs: its pieces, numbers and constants."""

import re
import unittest

from ..assembling.forms import HELPERS
from ..assembling.items import Jump
from ..assembling.programs import Placed, Program, jump_faults, read
from ..assembling.scanning import Fault, Pieces, bytes_of
from ..home import ROOT


def plain(text: str) -> str:
    """The text for `celbpf asm` of a text without a fault."""
    program = read(text)
    if program.faults:
        raise program.faults[0][1]
    return program.plain


class Texts(unittest.TestCase):
    def test_escapes(self) -> None:
        for text, wanted in [
            (r'"a\n\t\r\0\"\\"', b'a\n\t\r\0"\\'), (r'"\x00\xfF"', b"\0\xff"), (r'"\u{e9}\u{10ffff}"', "é\U0010ffff".encode()),
        ]:
            with self.subTest(text):
                self.assertEqual(bytes_of(Pieces(text).take()), wanted)

    def test_no_escapes(self) -> None:
        for text, column in [(r'"ab\q"', 4), (r'"\xg0"', 2), (r'"\u{110000}"', 2), (r'"\u{}"', 2), (r'"a\u{dfff}"', 3)]:
            with self.subTest(text), self.assertRaises(Fault) as raised:
                bytes_of(Pieces(text).take())
            self.assertEqual(raised.exception.column, column)


class Numbers(unittest.TestCase):
    def test_of_32_bits(self) -> None:
        for number, wanted in [("-2147483648", -2147483648), ("0x7fff_ffff", 2147483647), ("-0x10", -16), ("+1_0", 10), ("0", 0)]:
            with self.subTest(number):
                self.assertEqual(plain(f"mov64 r1, {number}"), f"mov64 r1, {wanted}\n")

    def test_none_of_32_bits(self) -> None:
        for number in ("2147483648", "-2147483649", "0x", "0x_1", "00", "1x", "--1", "- r1", "1" * 5000, "0X1", "٣", "1_", "1__0", "0x1_"):
            with self.subTest(number), self.assertRaises(Fault):
                plain(f"mov64 r1, {number}")

    def test_of_64_bits(self) -> None:
        for number, wanted in [("-1", "f" * 16), ("0x8000000000000000", "8" + "0" * 15), ("-9223372036854775808", "8" + "0" * 15)]:
            with self.subTest(number):
                self.assertEqual(plain(f"lddw r1, {number}"), f"lddw r1, 0x{wanted}\n")
        for number in ("18446744073709551616", "-9223372036854775809"):
            with self.subTest(number), self.assertRaises(Fault):
                plain(f"lddw r1, {number}")


class Helpers(unittest.TestCase):
    def test_names_are_those_of_the_page(self) -> None:
        page = (ROOT / "docs" / "HELPERS.md").read_text(encoding="utf-8")
        rows = [(int(number), name) for number, name in re.findall(r"^(\d+)\. `(\w+)\(", page, re.MULTILINE)]
        self.assertEqual(rows, list(enumerate(HELPERS, 1)))
        for number, name in rows:
            self.assertEqual(plain(f"call {name}"), f"call {number}\n")

    def test_numbers_and_what_is_none(self) -> None:
        self.assertEqual(plain("call 0x4 ; text_const"), "call 4\n")
        self.assertEqual(plain("call 77"), "call 77\n")
        for operand, why in [
            ("sise", "no helper is called `sise`; there is `size`"),
            ("end", "no helper is called `end`; there is `ends`"),
            ("main", "no helper is called `main`; docs/HELPERS.md lists them, and `call_local` calls a label"),
            ("", "the number or the name of a helper is expected, and here is the end of the line"),
        ]:
            with self.subTest(operand), self.assertRaises(Fault) as raised:
                plain(f"call {operand}")
            self.assertEqual((raised.exception.column, raised.exception.why), (6 if operand else 5, why))


class Constants(unittest.TestCase):
    def test_places_and_sizes(self) -> None:
        text = '.constants\na: "xy"\n"z", 1\nb:\nc: 2\n.code\nlddw r1, %s\nmov64 r2, %s.size\n'
        for name, place, size in [("a", 0, 4), ("b", 4, 0), ("c", 4, 1)]:
            with self.subTest(name):
                self.assertEqual(plain(text % (name, name)), f"lddw r1, 0x{(4 << 32) + place:016x}\nmov64 r2, {size}\n")

    def test_a_name_is_a_constant_or_a_label(self) -> None:
        for text in ("a: exit\n.constants\na: 1\n", ".constants\na: 1\n.code\nja a\n", "a: exit\nlddw r1, a\n"):
            with self.subTest(text), self.assertRaises(Fault):
                plain(text)


class Slots(unittest.TestCase):
    def test_have_sixteen_digits(self) -> None:
        self.assertEqual(plain(".slot 0x0F10000000000000"), ".slot 0x0f10000000000000\n")
        for digits in ("0x95", "95", "0x" + "1" * 15, "0x" + "1" * 17, "-0x" + "1" * 16, "0x1_" + "1" * 15, ""):
            with self.subTest(digits), self.assertRaises(Fault) as raised:
                plain(f".slot {digits}")
            self.assertIn("16 hex digits", raised.exception.why)

    def test_stores_take_the_bits_of_their_size(self) -> None:
        for text in ("stb [r1], -128", "stb [r1], 255", "sth [r1], 0xffff", "sth [r1], -32768", "stw [r1], -1"):
            with self.subTest(text):
                plain(text)
        for text in ("stb [r1], -129", "stb [r1], 256", "sth [r1], 0x10000", "sth [r1], -32769"):
            with self.subTest(text), self.assertRaises(Fault) as raised:
                plain(text)
            self.assertIn("bits that `st", raised.exception.why)


class Advice(unittest.TestCase):
    def test_says_what_is_meant(self) -> None:
        for text, wanted in [
            ("je64 r1, 0, +1", "write `jeq64`"), ("xadd64 [r1], r2", "write `atomic_add64`"), (".text", "write `.code`"), ("ret", "write `exit`"),
            ("atomic_fetch_xchg64 [r1], r2", "write `atomic_xchg64`"), ("atomic_sub64 [r1], r2", "negate the register"), ("nop", "write `ja +0`"),
            ("atomic_add8 [r1], r2", "32 or 64 bits"), ("MOV64 r1, 1", "lower case"), ("mov64 R1, 1", "lower case"), ("mov64 r1, R2", "lower case"),
            ("foo", "docs/MACHINE.md"), ("mov r1, 1", "there are `mov32` and `mov64`"), ("mov64 r0, 0xffffffff", "lddw loads 64 bits"), ("mov32 r0, 0xffffffff", "-1 has the same bits"),
            ("stw [r1], 0xdeadbeef", "-559038737 has the same bits"), ("stdw [r1], 0xdeadbeef", "lddw loads 64 bits"),
            ("jeq32 r1, 0x80000000, +0", "-2147483648 has the same bits"), ("ja32 +2147483648", "32 bits signed"), ("a-b:", "letters, digits"),
            ('.constants\nx: "a"\nmov64 r0, 1', "a line `.code` ends"), ('.constants\nx: "a"\n.code\nmov64 r0, x', "`x.size` is its size"),
        ]:
            with self.subTest(text), self.assertRaises(Fault) as raised:
                plain(text)
            self.assertIn(wanted, raised.exception.why)

    def test_jumps_have_no_other_bits(self) -> None:
        with self.assertRaises(Fault) as raised:
            plain("ja32 +2147483648")
        self.assertNotIn("same bits", raised.exception.why)


class Lines(unittest.TestCase):
    def test_of_windows(self) -> None:
        self.assertEqual(plain("exit\r\n; a\r\nexit"), "exit\nexit\n")

    def test_jumps_at_the_borders(self) -> None:
        # an offset is counted from the slot after the jump
        for bits, slot, label, is_far in [
            (16, 0, 32768, False), (16, 0, 32769, True), (16, 32767, 0, False), (16, 32768, 0, True), (32, 0, 65536, False),
        ]:
            with self.subTest(bits=bits, slot=slot, label=label):
                jump = Placed("ja end", 1, slot, 1, (Jump("end", 4, bits),))
                program = Program(placed=[jump], labels={"end": label})
                self.assertEqual(len(list(jump_faults(program))), int(is_far))
