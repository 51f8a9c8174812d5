"""Sheets in and out: every form that is taken, every kind of bad sheet, correct rounding, there and back."""
from __future__ import annotations

import random
import struct
import unittest
from fractions import Fraction

from helpers import crossing
import doubles
import spreadsheet
from spreadsheet import BadSheet, Crossing

TWO = Crossing([[1.5, -2.0], [4.0, 0.25]], [3.0, 1e3])


def square(pads: int, cell: str = "1") -> str:
    """A sheet of so many pads."""
    return ("," .join([cell] * (pads + 1)) + "\n") * pads


def faults(sheet: "str | bytes") -> list:
    """What is wrong with a sheet."""
    try:
        spreadsheet.read(sheet.encode("utf-8") if isinstance(sheet, str) else sheet)
    except BadSheet as why:
        return why.faults
    return []


class Taken(unittest.TestCase):
    """The forms that a sheet may have."""

    def test_forms(self) -> None:
        """Commas, semicolons with decimal commas, tabs; with a head row and without; blank lines; byte-order marks."""
        commas, semicolons, tabs = "1.5,-2,3\n4,.25,1e3\n", "1,5;-2;3\n4;,25;1e3\n", "1.5\t-2\t3\n4\t.25\t1E+3\n"
        forms = {
            "commas": commas, "semicolons": semicolons, "tabs": tabs, "no last newline": commas[:-1], "CR LF": commas.replace("\n", "\r\n"),
            "CR": commas.replace("\n", "\r"), "blank lines": "\n\n" + commas.replace("\n", "\n\n  \n"), "rows of empty cells": ",,\n" + commas + ",,\n,,\n",
            "head": "pad 1,pad 2,reading\n" + commas, "head with a semicolon": "pad 1; north,pad 2,reading\n" + commas,
            "head with decimal points": "pad 1.1;pad 1.2;reading\n" + semicolons, "head of numbers and a word": "1,2,reading\n" + commas,
            "short head": "survey of May\n" + commas, "long head": "a,b,c,remarks\n" + commas, "head of tabs": "a\tb\tc\n" + tabs,
            "quotes": '"pad\n1",b,c\n"1.5","-2",3\n4,.25,"1e3"\n', "spaces": " 1.5 , -2,3 \n4\u00a0,.25,1e3\n", "plus": "+1.5,-2,3.\n4,+.25,1000\n",
            "empty columns at the right": "a,b,c,,\n1.5,-2,3,,\n4,.25,1e3,,\n", "zeros": "01.50,-2,3\n4,0.250,1e0003\n",
            "semicolons at the right": semicolons.replace("\n", ";\n"),
        }
        for what, text in forms.items():
            for encoding in ("utf-8", "utf-8-sig", "utf-16"):
                with self.subTest(what, encoding=encoding):
                    self.assertEqual(spreadsheet.read(text.encode(encoding)), TWO)
        self.assertEqual(spreadsheet.read("\ufeff".encode("utf-16-be") + commas.encode("utf-16-be")), TWO)

    def test_one_pad(self) -> None:
        """The smallest sheets, in which a comma parts two cells."""
        self.assertEqual(spreadsheet.read(b"2,5"), Crossing([[2.0]], [5.0]))
        self.assertEqual(spreadsheet.read(b"2,5;5"), Crossing([[2.5]], [5.0]))
        self.assertEqual(spreadsheet.read(b"2\t5\n"), Crossing([[2.0]], [5.0]))
        self.assertEqual(spreadsheet.read(b"pad,reading\n2,5\n"), Crossing([[2.0]], [5.0]))

    def test_largest(self) -> None:
        """Sixty-four pads."""
        self.assertEqual(len(spreadsheet.read(square(64).encode()).readings), 64)

    def test_rounding(self) -> None:
        """The nearest double, ties to even: hard cases, by their bits."""
        for cell, bits in [("9007199254740993", "4340000000000000"), ("9007199254740995", "4340000000000002"), ("1e23", "44b52d02c7e14af6"),
                           ("2.2250738585072011e-308", "000fffffffffffff"), ("2.4703282292062327e-324", "0000000000000000"),
                           ("2.4703282292062328e-324", "0000000000000001"), ("1.7976931348623158e308", "7fefffffffffffff"),
                           ("-0", "8000000000000000"), ("0.1", "3fb999999999999a"), ("-1e-400", "8000000000000000"),
                           ("9007199254740992." + "9" * 400, "4340000000000000"), ("9007199254740993." + "0" * 400 + "1", "4340000000000001")]:
            with self.subTest(cell):
                for mark in ",;\t":
                    self.assertEqual(doubles.to_hex(spreadsheet.value(cell.replace(".", "," if mark == ";" else "."), mark)), bits)

    def test_rounding_at_random(self) -> None:
        """No neighbour of the double is nearer."""
        r = random.Random(35)
        for _ in range(2000):
            cell = f"{r.randrange(10 ** r.randrange(1, 25))}e{r.randrange(-345, 284)}"
            near, exact = spreadsheet.value(cell, ","), Fraction(cell)
            bits = int(doubles.to_hex(near), 16)
            for other in (bits - 1, bits + 1):
                if 0 <= other < 0x7ff << 52:
                    distance = abs(Fraction(doubles.from_hex("%016x" % other)) - exact)
                    self.assertTrue(abs(Fraction(near) - exact) < distance or abs(Fraction(near) - exact) == distance and bits % 2 == 0, cell)

    def test_there_and_back(self) -> None:
        """What is written is read as the same bits, whatever finite numbers they are, and in the file's order."""
        r = random.Random(1)
        for pads in (1, 2, 3, 7, 26, 27, 64):
            numbers = [struct.unpack("<d", struct.pack("<Q", r.randrange(0x7ff << 52) | r.randrange(2) << 63))[0] for _ in range(pads * pads + pads)]
            numbers[:2] = [-0.0, 5e-324]
            crossing = spreadsheet.crossing_of(pads, numbers)
            back = spreadsheet.read(spreadsheet.written(crossing).encode("ascii"))
            self.assertEqual([doubles.to_hex(x) for x in back.numbers()], [doubles.to_hex(x) for x in numbers])
        self.assertEqual(spreadsheet.crossing_of(2, [0.0, 2.0, 1.0, 0.0, 5.0, 8.0]), Crossing([[0.0, 1.0], [2.0, 0.0]], [5.0, 8.0]))

    def test_written(self) -> None:
        """A head row, commas, the shortest digits."""
        self.assertEqual(spreadsheet.written(TWO), "pad 1,pad 2,reading\n1.5,-2,3\n4,0.25,1000\n")


class Bad(unittest.TestCase):
    """Every kind of bad sheet is told, and where."""

    def test_cells(self) -> None:
        """A bad cell has its row, its column, its name in the spreadsheet and what is wrong with it."""
        for cell, mark, wrong in [
            ("x", ",", "'x' is not a number"), ("", ",", "the cell is empty"), (" ", "\t", "the cell is empty"), ("nan", ",", "'nan' is not finite"),
            ("-Infinity", ";", "is not finite"), ("INF", "\t", "is not finite"), ("1e309", ",", "'1e309' is too large"), ("-1e99999", ";", "is too large"),
            ("#DIV/0!", ",", "is an error of the spreadsheet"), ("#N/A", ";", "is an error of the spreadsheet"),
            ("1.5", ";", "with semicolons between the cells the decimal mark is the comma, and the point has no meaning"),
            ("1,5", "\t", "with tabs between the cells the decimal mark is the point, and the comma has no meaning"),
            ('"1,5"', ",", "with commas between the cells the decimal mark is the point, and the comma has no meaning"),
            ("1.234,5", ";", "the point has no meaning"), ('"1,234.5"', ",", "the comma has no meaning"), ("1 000", ",", "nothing parts the thousands"),
            ("1\u00a0000", ";", "nothing parts the thousands"), ("1'000", ";", "nothing parts the thousands"), ("1.2.3", ",", "nothing parts the thousands"),
            ("\u22125", ",", "begins with a dash that is no minus sign"), ("5-", ",", "'5-' is not a number"), ("--5", ",", "is not a number"),
            ("1_000", ",", "is not a number"), ("0x10", ",", "is not a number"), ("5%", ";", "is not a number"), ("1e", ",", "is not a number"),
            ("e5", ",", "is not a number"), (".", ",", "is no plain number"), ("1e5.5", ",", "is not a number"), ("\u0661", ",", "is not a number"),
            ("=A1", ",", "is not a number"), ("2026-11-16", ",", "is not a number"), ("1/2", ";", "is not a number"), ("TRUE", ",", "is not a number"),
            ("(5)", ",", "is not a number"), ("x" * 99, ",", "'%s...' is not a number" % ("x" * 37)), ('"a ""b"""', ",", "is not a number"),
        ]:
            with self.subTest(cell, mark=mark):
                told = faults(mark.join("111") + "\n" + mark.join(["1", cell, "1"]) + "\n")
                self.assertEqual(len(told), 1, told)
                self.assertTrue(told[0].startswith("row 2, column 2 (B2): "), told)
                self.assertIn(wrong, told[0])

    def test_places(self) -> None:
        """Rows count as the spreadsheet counts them, with the head and blank ones; columns have letters."""
        self.assertEqual(faults("a,b,c\n\n1,2,3\n\n4,,x\n"), ["row 5, column 2 (B5): the cell is empty", "row 5, column 3 (C5): 'x' is not a number"])
        wide = ("1," * 64 + "1\n") * 63 + "1," * 64 + "x\n"
        self.assertEqual(faults(wide), ["row 64, column 65 (BM64): 'x' is not a number"])
        self.assertEqual([spreadsheet.letter(k) for k in (1, 26, 27, 52, 53, 65, 703)], ["A", "Z", "AA", "AZ", "BA", "BM", "AAA"])

    def test_many_faults(self) -> None:
        """The first twenty, and how many more there are."""
        told = faults("1," * 8 + "1\n" + square(7, "x").replace("\n", ",x\n"))
        self.assertEqual((len(told), told[-1]), (21, "and 43 more cells"))

    def test_shapes(self) -> None:
        """No rows, too many, ragged ones, and another width than the rows ask for."""
        for sheet, wrong in [
            ("", "there are no rows of numbers"), ("\n \n\n", "there are no rows of numbers"), (",,,\n,,,\n", "there are no rows of numbers"),
            ("a,b,c\n", "there are no rows of numbers (row 1 is taken as the head row)"),
            (square(65), "there are 65 rows of numbers, and a panel has 1 to 64 pads"),
            ("1,2,3\n4,5\n", "row 2 has 2 cells, and row 1 has 3"), ("1,2,3\n4,5,6,7\n", "row 2 has 4 cells, and row 1 has 3"),
            ("1,2,3,4\n4,5,6\n", "row 2 has 3 cells, and row 1 has 4"),
            ("1,2\n3,4\n", "there are 2 rows of numbers with 2 cells each, parted by commas: 2 rows ask for 3 cells"),
            ("1,2,3,4\n5,6,7,8\n", "there are 2 rows of numbers with 4 cells each"), ("a,b,c,d\n1,2,3,4\n5,6,7,8\n", "2 rows ask for 3 cells"),
            ("1,2,3\n4,5,6\n7,8,9\n", "there are 3 rows of numbers with 3 cells each"), ("a,b,c,d\n1,2,3\n4,5,6\n7,8,9\n", "(row 1 is taken as the head row)"),
            ("1 2 3\n4 5 6\n", "with 1 cells each"), ("1|2|3\n4|5|6\n", "there are 1 rows of numbers with 1 cells each"), ("5\n", "1 rows ask for 2 cells"),
            ("a;b;c\n1;2\n3;4\n", "there are 2 rows of numbers with 2 cells each, parted by semicolons"),
        ]:
            with self.subTest(sheet[:30]):
                self.assertIn(wrong, " / ".join(faults(sheet)))

    def test_not_text(self) -> None:
        """What is no text is told as such, with the place."""
        for data, wrong in [(crossing("four-pads.lxp"), "not text"), (b"1,2\xff\n", "not text: byte 4 is not UTF-8"),
                            (b"1,\xc3\n", "byte 3 is not UTF-8"), (b"1,2\0\n", "it has a character 0"),
                            (b"\xff\xfe1\0,\0002", "not text: byte 7 is not UTF-16"),
                            (b"PK\3\4\xde\xad", "a workbook and no text: save the sheet as CSV"), (b"1," * (9 << 20), "too large for a sheet")]:
            with self.subTest(data[:10]):
                self.assertIn(wrong, faults(data)[0])

    def test_quotes(self) -> None:
        """Quotes that do not close, or close too early, and a cell without an end."""
        for sheet, row in [('"1,2\n', 1), ('1,2,3\n4,"5"x,6\n', 2), ("1,2,3\n4,5," + "6" * 200000 + "\n", 2)]:
            self.assertTrue(faults(sheet)[0].startswith(f"row {row}: a cell's quotes are wrong"), faults(sheet))


if __name__ == "__main__":
    unittest.main()
