"""The smallest pieces of JSON, as bytes: good ones, and at one place a fault."""

from typing import Any

GOOD_CHARACTERS = [
    *(bytes([code]) for code in b"abcxyzABC019 /{}[]:,'"), b"\x7f", "é".encode(), "ß".encode(), "日".encode(),
    "\u2028".encode(),
    "\ud7ff".encode(), "\ue000".encode(), "\uffff".encode(), "\U00010000".encode(), "😀".encode(),
    "\U0010ffff".encode(),
    "\ufeff".encode(), "\u0080".encode(), "\u07ff".encode(), "\u0800".encode(),
]
ESCAPES = [
    b'\\"', b"\\\\", b"\\/", b"\\b", b"\\f", b"\\n", b"\\r", b"\\t", b"\\u0000", b"\\u001f", b"\\u001F", b"\\u0020",
    b"\\u0022",
    b"\\u005c", b"\\u005C", b"\\u002f", b"\\u0061", b"\\u0041", b"\\u007f", b"\\u0080", b"\\u07ff", b"\\u0800",
    b"\\uD7FF", b"\\ue000",
    b"\\uffff", b"\\uFFFE", b"\\ufeff", b"\\ud800\\udc00", b"\\uDBFF\\uDFFF", b"\\uD83d\\ude00",
    b"\\ud83D\\uDE00\\ud800\\udc00",
    b"\\u00e9", b"\\u65e5", b"\\\\u0061", b"\\\\\\\\", b'\\\\\\"',
]
BAD_PIECES = [
    b"\\ud800", b"\\udbff", b"\\udc00", b"\\uDFFF", b"\\ud800\\ud800", b"\\udc00\\ud800", b"\\ud800\\ud800\\udc00",
    b"\\ud83d ",
    b"\\ud83d\\n", b"\\ud83d\\\\ude00", b"\\ud83d\\u0061", b"\\ud83d\\u", b"\\ud83d\\ue000", b"\\udbff\\udbff",
    b"\\x61", b"\\a", b"\\'", b"\\0", b"\\U0061",
    b"\\u006", b"\\u00g1", b"\\u 061", b"\\u+061", b"\\u-001", b"\\u0x61", b"\\u006\xc3\xa9", b"\\", b'"', b'"x"',
    b"\\\n", b"\\v",
    *(bytes([code]) for code in range(32)), b"\x80", b"\xbf", b"\xc0\xaf", b"\xc1\xbf", b"\xc2", b"\xe0\x80\x80",
    b"\xe0\x9f\xbf", b"\xe2\x82",
    b"\xed\xa0\x80", b"\xed\xbf\xbf", b"\xf0\x80\x80\x80", b"\xf0\x8f\xbf\xbf", b"\xf0\x9f\x98", b"\xf4\x90\x80\x80",
    b"\xf5\x80\x80\x80", b"\xfe", b"\xff",
]
INTS = [
    b"0", b"1", b"-1", b"7", b"10", b"-10", b"42", b"1000000000000000000", b"9223372036854775806",
    b"9223372036854775807",
    b"-9223372036854775807", b"-9223372036854775808", b"999999999999999999", b"-999999999999999999", b"4294967296",
    b"2147483648",
]
OTHER_NUMBERS = [
    b"-0", b"0.0", b"-0.0", b"1.0", b"1.5", b"-2.5", b"1e0", b"1e2", b"1E2", b"1e+2", b"1E-2", b"0e0", b"0E+0",
    b"-0e-0", b"1e-400", b"0e999999", b"0.0e99999999999999999999",
    b"9223372036854775808", b"-9223372036854775809", b"9223372036854775807.0", b"18446744073709551615",
    b"18446744073709551616",
    b"-18446744073709551616", b"99999999999999999999", b"100000000000000000000000000", b"1e308",
    b"1.7976931348623157e308",
    b"1.7976931348623158e308", b"-1.7976931348623158e+308", b"4.9e-324", b"2e-324", b"1" + b"0" * 308,
    b"0." + b"0" * 400 + b"1e390",
    b"1" + b"0" * 400 + b"e-200", b"0." + b"123456789" * 60, b"10000000000000000000", b"-10000000000000000000",
    b"0e1",
    # just below halfway from the greatest double to the next power of two
    b"%d" % (2**1024 - 2**970 - 1),
]
NEAREST_OTHERS = [b"-0", b"9223372036854775808", b"-9223372036854775809", b"1.0", b"18446744073709551615"]
BAD_NUMBERS = [
    b"%d" % (2**1024 - 2**970), b"1e309", b"1e400", b"-1e400", b"1E+999", b"1e99999999999999999999",
    b"1.7976931348623159e308", b"-1.7976931348623159e308", b"1" + b"0" * 309, b"-2" + b"0" * 308,
    b"1" * 400, b"0." + b"0" * 10 + b"1e400", b"01", b"-01", b"00", b"-00", b"+1", b"+0", b"1.", b"-1.", b".5",
    b"-.5", b"1e", b"1e+", b"1E-", b"1.e2",
    b"1.5e", b"-", b"--1", b"- 1", b"1 2", b"0x10", b"1_000", b"1e2.5", b"1e2e3", b"1.2.3", b"NaN", b"-NaN", b"nan",
    b"Infinity", b"-Infinity", b"inf",
    b"1f", b"1a", b"12L", b"\xd9\xa1", b"1,2,", b"1-2", b"1+2", b"0b1", b"0o7", b"1e\xc2\xb2", b"9" * 5000,
]
WORDS = [b"null", b"true", b"false"]
BAD_WORDS = [
    b"nul", b"nulll", b"Null", b"NULL", b"True", b"tru", b"truee", b"falsE", b"fals", b"undefined", b"None", b"n",
    b"null0", b"true\x00",
    b"'a'", b"a", b"\\u006eull", b"/**/null", b"null//", b"<", b"\x00", b"\xef\xbb\xbfnull", b"nan", b"`", b"~",
    b"null\"\"", b"true\"",
]
SPACES = [b" ", b"\n", b"\t", b"\r", b"  ", b"\r\n", b" \t\n\r"]
BAD_SPACES = [
    b"\x0b", b"\x0c", b"\x00", b"\xc2\xa0", b"\xef\xbb\xbf", b"\xe2\x80\xa8", b"/* */", b"//\n", b"#\n", b"\x1f",
    b"\x85", b"\x7f", b"\xe3\x80\x80",
]


# what may be wrong: "other" is a number that is no 64-bit int, and "bytes" any byte of the document
FAULTS = ["number", "other", "character", "word", "space", "text", "colon", "closed", "bytes"]


class Pieces:
    """Pieces drawn by numbers. At most one has a fault, of the kind `fault`, after `wait` that could have had it."""

    def __init__(self, numbers: Any, fault: str = "", wait: int = 0):
        self.numbers = numbers
        self.fault = fault
        self.wait = wait

    def spoils(self, fault: str) -> bool:
        """Whether the next piece is to have this fault."""
        if fault != self.fault:
            return False
        self.wait -= 1
        return self.wait == -1

    def space(self) -> bytes:
        if self.spoils("space"):
            return self.numbers.pick(BAD_SPACES)
        return self.numbers.pick(SPACES) if self.numbers.one_in(6) else b""

    def text(self) -> bytes:
        """A text with its quotes."""
        inside = b"".join(self.character() for _ in range(self.numbers.pick([0, 1, 1, 2, 3, 5, 9, 17, 40])))
        if self.spoils("text"):
            return self.numbers.pick([b'"' + inside, inside + b'"', b"'" + inside + b"'", b'"' + inside + b'""'])
        return b'"' + inside + b'"'

    def character(self) -> bytes:
        if self.spoils("character"):
            return self.numbers.pick(BAD_PIECES)
        return self.numbers.pick(ESCAPES if self.numbers.one_in(3) else GOOD_CHARACTERS)

    def number(self) -> bytes:
        if self.spoils("number"):
            return self.numbers.pick(BAD_NUMBERS)
        if self.spoils("other"):
            return self.numbers.pick(OTHER_NUMBERS if self.numbers.one_in(2) else NEAREST_OTHERS)
        if self.numbers.one_in(2):
            return b"%d" % (self.numbers.next() - 2**63 >> self.numbers.below(64))
        return self.numbers.pick(INTS)

    def word(self) -> bytes:
        return self.numbers.pick(BAD_WORDS if self.spoils("word") else WORDS)
