"""What `parse` reads and why it refuses a text: rows, and made-up texts beside the library for C and the definition.

RANGE_SETS_TEXTS says how many texts are made up.
"""

import ctypes
import os
import random
import re
import shlex
import subprocess
import sysconfig
import tempfile
import unittest
from collections import Counter
from pathlib import Path

from range_sets import ParseError, RangeSet

LIBRARY = Path(__file__).resolve().parent.parent.parent / "dist" / "librange_set.a"
TEXTS = int(os.environ.get("RANGE_SETS_TEXTS", "4000"))
LIMITS = {False: (-(2**63), 2**63 - 1), True: (0, 2**64 - 1)}
FITS = {False: "a number from -2**63 to 2**63 - 1", True: "a number from 0 to 2**64 - 1"}
# Unicode's White_Space.
BLANKS = "\t\n\v\f\r \x85\xa0\u1680\u2000\u2001\u2002\u2003\u2004\u2005\u2006\u2007\u2008\u2009\u200a\u2028\u2029\u202f\u205f\u3000"

# ---- The definition ----

NUMBER = "[+-]?[0-9]+"
RANGE = rf"[{BLANKS}]*{NUMBER}\.\.(?:{NUMBER})?[{BLANKS}]*"
RANGES = re.compile(rf"[{BLANKS}]*|{RANGE}(?:,{RANGE})*")
# With one of these, each front of a text of ranges goes on to such a text.
RESTS = "", ".", "..", "0", "0.."


def is_ranges(text):
    """Whether it is a text of ranges, with numbers of any size."""
    return RANGES.fullmatch(text) is not None


def begins_ranges(front):
    return any(is_ranges(front + rest) for rest in RESTS)


def expected_after(front):
    """What should stand after the longest front with which a text of ranges begins."""
    if begins_ranges(front + "."):
        return "a dot"
    return "a comma or the end" if begins_ranges(front + ",") and not begins_ranges(front + "+") else "a number"


def fits(number, unsigned):
    least, most = LIMITS[unsigned]
    return least <= int(number) <= most and not (unsigned and number[0] == "-")


def by_definition(text, unsigned):
    """The boundaries of the set of a text, or what was expected, and where."""
    if not is_ranges(text):
        at = next(n for n in range(len(text), -1, -1) if begins_ranges(text[:n]))
        return expected_after(text[:at]), at
    for found in re.finditer(NUMBER, text):
        if not fits(found.group(), unsigned):
            return FITS[unsigned], found.start()
    boundaries = []
    for start, end in sorted((int(start), int(end) if end else 2**64) for start, end in re.findall(rf"({NUMBER})\.\.({NUMBER})?", text)):
        if start >= end:
            continue
        if boundaries and start <= boundaries[-1]:
            boundaries[-1] = max(boundaries[-1], end)
        else:
            boundaries += [start, end]
    return [it for it in boundaries if it != 2**64]


def by_python(text, unsigned):
    try:
        return RangeSet.parse(text, unsigned=unsigned).boundaries.tolist()
    except ParseError as error:
        return error.expected, error.position


# ---- The library for C, called without the package ----


class Set(ctypes.Structure):
    _fields_ = [("boundaries", ctypes.c_void_p), ("len", ctypes.c_size_t)]


DONE, MALFORMED, OUT_OF_RANGE = 0, 5, 6


def c_calls(folder):
    """`parse` of the proved library for signed and for unsigned numbers."""
    made = Path(folder, "librange_set.so")
    words = [*shlex.split(os.environ.get("CC", "cc")), "-shared", "-Wl,--whole-archive", LIBRARY, "-Wl,--no-whole-archive", "-o", made]
    subprocess.run(words, check=True)
    library = ctypes.CDLL(str(made))
    return {False: (library.range_set_i64_parse, ctypes.c_int64), True: (library.range_set_u64_parse, ctypes.c_uint64)}


def by_c(call, number, text):
    """The status, and the boundaries or the byte of the fault."""
    data, made, fault = text.encode(), Set(), ctypes.c_size_t()
    room = (number * (len(data) + 1))()
    status = call(data, ctypes.c_size_t(len(data)), room, ctypes.c_size_t(len(room)), ctypes.byref(made), ctypes.byref(fault))
    return status, room[: made.len] if status == DONE else fault.value


# ---- Made-up texts ----

SOUP = "0123456789.,-+ \t\x1c\x1d\x1e\x1f\x85\u2003\u3000\u00e9\u0663\U0001f600x\x00"


def made_number(some):
    near = some.choice([0, 2**63, -(2**63), 2**64, 10**20]) + some.randint(-2, 2)
    value = some.choices([some.randint(0, 30), some.randint(-30, 30), some.randint(0, 2**64 - 1), near], [8, 1, 1, 1])[0]
    sign = "-" if value < 0 else some.choices(["", "+", "-"], [8, 2, 1])[0]
    return sign + some.choice(["", "", "0", 25 * "0"]) + str(abs(value))


def made_range(some):
    blanks = ["".join(some.choices(BLANKS, k=some.choice([0, 0, 1, 2]))) for _ in range(2)]
    return blanks[0] + made_number(some) + ".." + some.choice(["", made_number(some), made_number(some)]) + blanks[1]


def made_text(some):
    """A text of ranges, or one with some characters changed, or any characters."""
    if some.random() < 0.2:
        return "".join(some.choices(SOUP, k=some.randint(0, 12)))
    text = ",".join(made_range(some) for _ in range(some.choice([0, 1, 1, 2, 3, 6])))
    for _ in range(some.choice([0, 0, 1, 1, 2])):
        at = some.randint(0, len(text))
        text = text[:at] + some.choice(["", *SOUP]) + text[at + some.randint(0, 1) :]
    return text


class Rows(unittest.TestCase):
    def compare(self, unsigned, rows):
        for text, expected in rows:
            with self.subTest(text=text, unsigned=unsigned):
                self.assertEqual(by_python(text, unsigned), expected)

    def test_separators_of_information_are_no_blanks(self):
        self.compare(False, [(f"{it}0..5", ("a number", 0)) for it in "\x1c\x1d\x1e\x1f"])
        self.compare(False, [(f"0..5{it}", ("a comma or the end", 4)) for it in "\x1c\x1d\x1e\x1f"])
        self.compare(False, [(f"{it}0..5{it},{it}7..{it}", [0, 5, 7]) for it in BLANKS] + [(BLANKS, [])])

    def test_numbers_without_a_sign_have_no_minus(self):
        self.compare(
            True,
            (
                ("-0..", (FITS[True], 0)),
                ("-5..9", (FITS[True], 0)),
                ("0..5, -3..9", (FITS[True], 6)),
                ("0..-0", (FITS[True], 3)),
                ("+0..+5", [0, 5]),
                ("-5", ("a dot", 2)),
                ("-", ("a number", 1)),
                ("-5, 0..3", ("a dot", 2)),
            ),
        )
        self.compare(False, (("-0..", [0]), ("-5", ("a dot", 2))))

    def test_numbers_that_are_too_large(self):
        nines = 20 * "9"
        for unsigned in (False, True):
            self.compare(
                unsigned,
                (
                    (nines, ("a dot", 20)),
                    (f"{nines}.", ("a dot", 21)),
                    (f"{nines}..x", ("a number", 22)),
                    (f"{nines}..", (FITS[unsigned], 0)),
                    (f"0..5, x, {nines}..", ("a number", 6)),
                    (f"{nines}.., x", ("a number", 24)),
                    (f"0..1, 1{5000 * '0'}..", (FITS[unsigned], 6)),
                    (f"0..1,\u2003 7..{nines}, {nines}..", (FITS[unsigned], 10)),
                    (f"{30 * '0'}1..2", [1, 2]),
                ),
            )
        self.compare(False, (("0..9223372036854775808", (FITS[False], 3)), ("-9223372036854775809..", (FITS[False], 0))))
        self.compare(True, (("0..18446744073709551615", [0, 2**64 - 1]), ("0..18446744073709551616", (FITS[True], 3))))

    def test_positions_count_characters(self):
        self.compare(
            False,
            (
                ("\u2003\u3000x", ("a number", 2)),
                ("0..5,\u2003\u2003;", ("a number", 7)),
                ("0..5\u3000\U0001f600", ("a comma or the end", 5)),
                ("\U0001f600", ("a number", 0)),
                ("0..5, \ud800", ("a number", 6)),
                ("\u2003x\udfff", ("a number", 1)),
                ("0..5\0", ("a comma or the end", 4)),
                ("0..\u0663", ("a number", 3)),
            ),
        )

    def test_other_types(self):
        for given in (b"0..5", None, 5, ["0..5"]):
            with self.assertRaises(TypeError):
                RangeSet.parse(given)


class MadeUp(unittest.TestCase):
    def setUp(self):
        seed = 20400
        print(f"{TEXTS} made-up texts from the seed {seed}")
        some = random.Random(seed)
        self.texts = ((made_text(some), some.random() < 0.5) for _ in range(TEXTS))

    def test_the_definition(self):
        read, refused = 0, Counter()
        for text, unsigned in self.texts:
            expected = by_definition(text, unsigned)
            self.assertEqual(by_python(text, unsigned), expected, (text, unsigned))
            if isinstance(expected, list):
                read += 1
            else:
                refused[expected[0]] += 1
        self.assertGreater(read, TEXTS // 4)
        self.assertEqual(set(refused), {"a number", "a dot", "a comma or the end", *FITS.values()})
        self.assertGreater(min(refused.values()), TEXTS // 25, refused)

    @unittest.skipUnless(LIBRARY.is_file() and sysconfig.get_platform() == "linux-x86_64", "there is no proved library for C here")
    def test_the_library_for_c(self):
        with tempfile.TemporaryDirectory() as folder:
            calls = c_calls(folder)
            for text, unsigned in self.texts:
                (status, count), got = by_c(*calls[unsigned], text), by_python(text, unsigned)
                if status == DONE:
                    expected = count
                elif status == OUT_OF_RANGE:
                    expected = FITS[unsigned], got[1]
                else:
                    self.assertEqual(status, MALFORMED, (text, unsigned))
                    expected = got[0], len(text.encode()[:count].decode())
                    self.assertIn(got[0], ("a number", "a dot", "a comma or the end"), (text, unsigned))
                self.assertEqual(got, expected, (text, unsigned))


if __name__ == "__main__":
    unittest.main()
