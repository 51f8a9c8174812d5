"""Night sheets: notes, text and its listings in the documents."""
from __future__ import annotations

import glob
import os
import random
import re
import tempfile
import unittest
from typing import List, Tuple

from helpers import TOP, StandIns, crossing, held, panel
import doubles
import night
import notes
import spreadsheet
from programs import Load, Pivots, Programs, Refused, Stiffness
from sheets import Sheet, sheet_of, status, summary


def noted(file: bytes, *left_out: str) -> str:
    """The notes on a file, one after the other."""
    programs = StandIns(*left_out)
    loads = programs.order(file)
    assert not isinstance(loads, Refused)
    return " ".join(notes.notes(programs, file, loads))


class Notes(unittest.TestCase):
    """What is noted, and what is not."""

    def test_nothing(self) -> None:
        """The accepted files of crossings/ are sound; soft ground as such is no cause."""
        for name in ("whole-case", "four-pads", "equal-loads", "soft-ground"):
            self.assertEqual(noted(crossing(name + ".lxp")), "")
        self.assertEqual(noted(panel([[1.0]], [0.0])), "", "a load of nothing")

    def test_toss_ups(self) -> None:
        """Two rows of equal magnitude; without the program that counts them there is no note."""
        file = panel([[1.0, -1.0], [1.0, 1.0]], [1.0, 2.0])
        self.assertIn("toss-up in 1 of 2 columns", noted(file))
        self.assertEqual(noted(file, "panel_pivots"), "")
        self.assertEqual(notes.toss_ups(Pivots(0, 1.0, 1.0, 1.0), 1), "")

    def test_far_apart(self) -> None:
        """Loads six orders apart, with the determinant; an idle pad is not the least."""
        file = panel([[1.0, 0.0, 0.0], [0.0, 1e-9, 0.0], [0.0, 0.0, 1.0]], [3.0, 7.0, 0.0])
        told = noted(file, "panel_pivots")
        self.assertIn("The loads differ by 9 orders of magnitude: pad 2 carries 7000000000, pad 1 3.", told)
        self.assertIn("The determinant of the matrix is", told)
        self.assertIn("about 1.0e-9", told)
        self.assertEqual(notes.far_apart([Load(1, 9.9e5), Load(2, 1.0)]), "")
        self.assertIn("differ by 6 orders", notes.far_apart([Load(1, -1e6), Load(2, 1.0)]))
        self.assertIn("differ by 631 orders", notes.far_apart([Load(1, 1.7e308), Load(2, 5e-324), Load(3, 0.0)]))

    def test_nearly_singular(self) -> None:
        """A singular matrix that rounding hides is told by its least pivot, with the determinant."""
        file = panel([[1.0, 4.0, 7.0], [2.0, 5.0, 8.0], [3.0, 6.0, 9.0]], [1.0, 2.0, 4.0])
        told = noted(file)
        self.assertTrue(told.startswith("The least pivot is 1.1102230246251565e-16, and the greatest number of the matrix 9. "
                                        "The crossing may be nearly singular"))
        self.assertIn("about 6.7e-16", told)
        self.assertEqual(noted(file, "panel_pivots"), "", "nothing is said of what nobody counted")

    def test_grown(self) -> None:
        """Growth: the last pivot of this matrix is 2 to the power of the pads less one."""
        pads = 12
        rows = [[1.0 if i == j or j == pads - 1 else -1.0 if i > j else 0.0 for j in range(pads)] for i in range(pads)]
        file = panel([[row[j] for row in rows] for j in range(pads)], [1.0] * pads)
        self.assertIn("The numbers grew in the elimination: the greatest of the matrix is 1, the greatest pivot 2048.", noted(file))

    def test_determinant(self) -> None:
        """The scaled determinant in words, however small or great."""
        self.assertIn("1.25 times two to the power of -1200, about 7.3e-362", notes.determinant(Stiffness(1.25, -1200)))
        self.assertIn("-1.5 times two to the power of 65535, about -1.5e+19728", notes.determinant(Stiffness(-1.5, 65535)))
        self.assertIn("1 times two to the power of -68736, about 2.5e-20692", notes.determinant(Stiffness(1.0, -68736)))


class Night(unittest.TestCase):
    """The sheet as text."""

    def sheet(self, file: bytes, programs: Programs = StandIns()) -> Sheet:
        """The sheet of these bytes."""
        with tempfile.TemporaryDirectory() as folder:
            path = os.path.join(folder, "x.lxp")
            with open(path, "wb") as out:
                out.write(file)
            return sheet_of(programs, path, False)

    def test_lines(self) -> None:
        """Every pad has one line, with its load's shortest digits; no line is over 80 columns."""
        r = random.Random(7)
        for pads in (1, 2, 9, 64):
            columns = [[r.uniform(-1, 1) * 10.0 ** r.randrange(-3, 3) for _ in range(pads)] for _ in range(pads)]
            sheet = self.sheet(panel(columns, [r.uniform(-9, 9) for _ in range(pads)]))
            lines = night.text(sheet).splitlines()
            self.assertEqual([line for line in lines if len(line) > 80], [])
            found = [re.fullmatch(r" *(\d+) +(\d+)  ([ -]\S+) +([#=]*|\.) +\[ \]", line) for line in lines]
            rows = [line for line in found if line]
            self.assertEqual([int(row[1]) for row in rows], list(range(1, pads + 1)))
            self.assertEqual([Load(int(row[2]), float(row[3])) for row in rows], sheet.loads)

    def test_wide_loads(self) -> None:
        """The longest digits that a double has fit."""
        line = night.line(64, Load(64, -2.2250738585072014e-308), 1.0)
        self.assertEqual((len(line), line.startswith("  64   64  -2.2250738585072014e-308  .")), (80, True))

    def test_bars(self) -> None:
        """The greatest is full, signs differ, nothing is nothing, little is a point."""
        self.assertEqual([night.bar(load, 2.0) for load in (2.0, -2.0, 1.0, -1.0, 0.0, -0.0, 1e-9)],
                         ["#" * 38, "=" * 38, "#" * 19, "=" * 19, "", "", "."])
        self.assertEqual(night.bar(5e-324, 5e-324), "#" * 38)
        self.assertIn("   1    1   0 ", night.text(self.sheet(panel([[1.0]], [0.0]))))

    def test_refused(self) -> None:
        """The number, and the reason in a sentence; names are shown on one line whatever is in them."""
        told = night.text(Sheet("a\nb.lxp", refused=Refused(6, "column 2")))
        self.assertEqual(told.splitlines()[:3], ["Night sheet: a\\nb.lxp", "", "No order: refused 6."])
        self.assertIn("The matrix is singular", told)
        self.assertIn("not read", night.text(Sheet("x", unreadable="x: cannot be read: gone")))

    def test_summary(self) -> None:
        """How many have an order; then those that have none, in the order of the names. The status goes by the worst."""
        good, bad, gone = Sheet("a", [Load(1, 1.0)]), Sheet("b", refused=Refused(3)), Sheet("c", unreadable="c: gone")
        self.assertEqual(summary([good, bad, gone, bad]), ["4 files: 1 with an order, 2 refused, 1 that could not be read", "refused 3: b", "refused 3: b",
                                                           "not read: c"])
        self.assertEqual(night.ending([good, good]), "Summary: 2 files: 2 with an order, 0 refused\n")
        self.assertEqual([status([good]), status([good, bad]), status([gone, bad])], [0, 1, 2])

    def test_listings(self) -> None:
        """What a document shows of a sheet is what is printed; of a file that is not in crossings/ it shows the spreadsheet first."""
        programs = StandIns(*(() if os.path.isdir(os.path.join(TOP, "crates", "panel_pivots")) else ("panel_pivots",)))
        shown = []
        for document in [os.path.join(TOP, "README.md"), *glob.glob(os.path.join(TOP, "docs", "*.md"))]:
            made = {name + ".lxp": spreadsheet.read(text.encode()) for name, text in listings(document, r"cat (\w+)\.csv")}
            for name, text in listings(document, r"./panel-order --sheet (\S+\.lxp)"):
                file = programs.write(made[name].numbers(), len(made[name].readings)) if name in made else held(os.path.join(TOP, name))
                sheet = self.sheet(file, programs)
                self.assertEqual(text, night.text(Sheet(name, sheet.loads, sheet.notes, sheet.refused)), document)
                shown.append(name)
        self.assertEqual(sorted(shown), ["crossings/four-pads.lxp", "crossings/singular.lxp", "metres.lxp"])


def listings(document: str, command: str) -> List[Tuple[str, str]]:
    """What a document shows of a command: its word, and the lines up to the next command or text."""
    text = held(document).decode("utf-8")
    found = re.findall(rf"^    \$ {command}\n((?:    (?!\$).*\n|\n)+)", text, re.M)
    return [(word, re.sub(r"(?m)^    ", "", lines).rstrip("\n") + "\n") for word, lines in found]


class Digits(unittest.TestCase):
    """Doubles in decimal."""

    def test_shortest(self) -> None:
        """The digits give the bits back."""
        for number, digits in [(5.0, "5"), (-0.0, "-0"), (0.1, "0.1"), (1e16, "1e+16"), (1e22, "1e+22"), (-3.3897435897435897, "-3.3897435897435897")]:
            self.assertEqual(doubles.shortest(number), digits)
            self.assertEqual(doubles.to_hex(float(digits)), doubles.to_hex(number))
            self.assertEqual(doubles.from_hex(doubles.to_hex(number)), number)
