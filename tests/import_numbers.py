#!/usr/bin/env python3
"""The numbers of imports (docs/COMMANDS.md, "Import"): decimals times a scale, which are rounded outward, so that the
box in the store holds the box that was written. The values were worked out by hand, and random decimals are compared
with exact fractions. It tests the programs that `rt ci` made, by both compilers; where there is none, one is made.

import_numbers.py [WORDS OF unittest, as the name of a class or Class.test]
"""
import math
import random
from fractions import Fraction

from imports import Imports
from runs import main

BILLION = 1_000_000_000

# A text, a scale, and the low and the high that it is then.
ROUNDED = [
    ("0", 1, 0, 0),
    ("7", 1, 7, 7),
    ("-7", 1, -7, -7),
    ("+7", 1, 7, 7),
    ("12.5", 1, 12, 13),
    ("-12.5", 1, -13, -12),
    ("12.5", 2, 25, 25),
    ("-12.3456", 1000, -12346, -12345),
    ("-12.3456", 10000, -123456, -123456),
    (".5", 1, 0, 1),
    ("5.", 1, 5, 5),
    ("-0.0", 7, 0, 0),
    ("00012.50", 10, 125, 125),
    ("1e-3", 1, 0, 1),
    ("1e-3", 1000, 1, 1),
    ("-1E-3", 999, -1, 0),
    ("1.5e3", 1, 1500, 1500),
    ("1.23456e3", 1, 1234, 1235),
    ("1.23456e3", 100, 123456, 123456),
    ("123456e-3", 1, 123, 124),
    ("123456e-9", 1, 0, 1),
    ("0e999", BILLION, 0, 0),
    ("1e-999", BILLION, 0, 1),
    ("-1e-999", BILLION, -1, 0),
    ("0.333333333333333333333333333333", 3, 0, 1),
    ("0.333333333333333333333333333334", 3, 1, 2),
    ("100000000000000000000000e-20", 1, 1000, 1000),
    ("0.00000000000000000000000123e23", 100, 12, 13),
    ("2147483647", 1, 2147483647, 2147483647),
    ("-2147483648", 1, -2147483648, -2147483648),
    ("2.147483647", BILLION, 2147483647, 2147483647),
    ("2147483646.1", 1, 2147483646, 2147483647),
]

# What is beyond 32 bits then.
BEYOND = [
    ("2147483648", 1),
    ("2147483647.1", 1),
    ("-2147483648.1", 1),
    ("-2147483649", 1),
    ("2.1474836471", BILLION),
    ("99999999999999999999999999999999999999999999", 1),
    ("1e999", 1),
    ("-1e10", 1),
    ("5", BILLION),
    ("4294967296", 1),
    ("-18446744073709551616", 1),
]

NO_DECIMALS = [
    "",
    "-",
    "+",
    ".",
    "-.",
    "e5",
    "1e",
    "1e+",
    "12,5",
    "1 2",
    "0x10",
    "--1",
    "1.2.3",
    "1e5.5",
    "nan",
    "inf",
    "1e1000",
    "1e0001",
    "ä",
    "1_000",
]

# Where no scale is said: what is a whole number, and why others are refused.
WHOLE = [("7", 7), ("-7", -7), ("5.", 5), ("-0.00", 0), ("1.5e1", 15), ("1500e-2", 15), ("-2147483648", -2147483648)]
NOT_WHOLE = [
    ("-0.1276", "is no whole number"),
    ("12.5", "is no whole number"),
    ("1e-3", "is no whole number"),
    ("-2147483647.5", "is no whole number"),
    ("2147483647.5", "is out of range"),
    ("12,5", "is no number"),
]


def boxes(numbers):
    """A text of boxes whose corners are these numbers on the first axis, and 0 on the second."""
    return "minx,miny,maxx,maxy\n" + "".join(f'"{number}",0,"{number}",0\n' for number in numbers)


def rows(bounds):
    """The objects that they are then."""
    return [f"{ident} {low} 0 {high} 0" for ident, (low, high) in enumerate(bounds, 1)]


class Numbers(Imports):
    """Numbers of boxes are taken so, or refused."""

    # The numbers of the first column of a text with these words are refused for that.
    def refuses_number(self, words, number, why):
        self.refuses_text(words, boxes([number]), f'line 2, column minx: "{number}" {why}')

    def test_decimals_are_rounded_outward(self):
        for scale in sorted({scale for _, scale, _, _ in ROUNDED}):
            these = [row for row in ROUNDED if row[1] == scale]
            text = boxes(number for number, *_ in these)
            self.imports(["--scale", str(scale)], text, *rows((low, high) for *_, low, high in these))

    def test_random_decimals_are_rounded_outward(self):
        chance = random.Random(5)
        for scale in (1, 3, 10, 997, 100_000, BILLION):
            numbers, bounds = [], []
            while len(numbers) < 300:
                digits = [chance.choice("0123456789") for _ in range(chance.randrange(1, 30))]
                digits.insert(chance.randrange(len(digits) + 1), chance.choice([".", ""]))
                number = chance.choice(["", "-", "+"]) + "".join(digits)
                number += chance.choice(["", "", f"e{chance.randrange(-30, 30)}", f"E+{chance.randrange(9):03}"])
                value = Fraction(number) * scale
                if -(2**31) <= value <= 2**31 - 1:
                    numbers.append(number)
                    bounds.append((math.floor(value), math.ceil(value)))
            self.imports(["--scale", str(scale)], boxes(numbers), *rows(bounds))

    def test_what_is_beyond_32_bits(self):
        for number, scale in BEYOND:
            self.refuses_number(["--scale", str(scale)], number, "is out of range")

    def test_what_is_no_decimal(self):
        for number in NO_DECIMALS:
            self.refuses_number(["--scale", "1"], number, "is no number")

    def test_whole_numbers_alone_where_no_scale_is_said(self):
        self.imports([], boxes(number for number, _ in WHOLE), *rows((whole, whole) for _, whole in WHOLE))
        for number, why in NOT_WHOLE:
            self.refuses_number([], number, why)

    def test_a_scale_is_from_one_to_a_billion(self):
        said = "rstore: --scale N: N is a number from 1 to 1000000000\n"
        for scale in ("0", "1000000001"):
            self.ends(2, f"--create --import a --scale {scale} store", boxes(["0"]), "", said)
        for scale in ("1", "1000000000"):
            self.imports(["--scale", scale], boxes(["0"]), "1 0 0 0 0")


main()
