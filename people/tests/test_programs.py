"""What the programs print is taken apart, and what is no answer is none."""
from __future__ import annotations

import os
import sys
import tempfile
import unittest

from helpers import TOP, StandIns, crossing
import reasons
from programs import Failed, Load, Pivots, Programs, Refused, Stiffness


class Saying(Programs):
    """A program that prints what it is told to."""

    def __init__(self, text: str) -> None:
        super().__init__("", [])
        self.text = text

    def printed(self, name: str, given: bytes, *words: str) -> bytes:
        """The text."""
        return self.text.encode("ascii")


class Answers(unittest.TestCase):
    """The answers of each program."""

    def test_answers(self) -> None:
        """Of the files of crossings/."""
        programs, four, soft = StandIns(), crossing("four-pads.lxp"), crossing("soft-ground.lxp")
        self.assertEqual([(each.pad, round(each.load, 4)) for each in programs.order(four)], [(2, -3.3897), (1, 2.7192), (3, 2.2295), (4, -0.4872)])
        self.assertEqual(programs.order(crossing("whole-case.lxp")), [Load(2, 5.0), Load(1, 4.0)])
        self.assertEqual((programs.why(four), programs.why(crossing("singular.lxp"))), (None, Refused(6, "column 2")))
        self.assertEqual(programs.stiffness(soft), Stiffness(1.25, -1200))
        self.assertEqual(programs.moves(crossing("whole-case.lxp"), 1), [0.0, 0.5])
        self.assertEqual(programs.moves(crossing("whole-case.lxp"), 3), Refused(1))
        self.assertEqual(programs.pivots(crossing("whole-case.lxp")), Pivots(0, 2.0, 2.0, 1.0))
        self.assertEqual(programs.write([0.0, 2.0, 1.0, 0.0, 5.0, 8.0], 2), crossing("whole-case.lxp"))
        self.assertEqual(programs.season(b""), [0] * 16)

    def test_no_answers(self) -> None:
        """Another text is no answer, whichever program it comes from."""
        for text in ["", "pads 1\n", "pads 2\n1 4014000000000000\n", "pads 1\n1 4014000000000000", "pads 1\n2 4014000000000000\n", "refused\n", "refused 10\n",
                     "refused 6", "0 4014000000000000\n", "2 4014000000000000\n", "pads 1\n1 4014 000000000000\n", "pads 1\n1 40140000000000000\n", "0\n" * 15,
                     "0\n" * 17, "no reason", "4014000000000000\n", "toss-ups 0\nmatrix 4014000000000000\n", "LXP",
                     "pads 1\n1 401400000000000G\n", "pads 1\n1 nan\n"]:
            said = Saying(text)
            for ask in (lambda: said.order(b""), lambda: said.why(b""), lambda: said.stiffness(b""), lambda: said.moves(b"", 1), lambda: said.pivots(b""),
                        lambda: said.season(b""), lambda: said.write([1.0, 2.0], 1)):
                with self.subTest(text), self.assertRaisesRegex(Failed, "gave no (answer|panel file)"):
                    ask()

    def test_refused_writing(self) -> None:
        """The writer's refusal is told."""
        with self.assertRaisesRegex(Failed, "panel_write gave no panel file: refused 5"):
            StandIns().write([float("inf"), 1.0], 1)

    def test_runs(self) -> None:
        """A program that is missing, that cannot be run, that fails, and one that runs behind other words."""
        with tempfile.TemporaryDirectory() as folder:
            for name, text, mode in [("panel_order", "#!/bin/sh\nexit 3\n", 0o755), ("panel_why", "#!/nowhere\n", 0o755),
                                     ("panel_stiffness", f"#!{sys.executable}\nprint('3ff0000000000000 -5')\n", 0o644)]:
                path = os.path.join(folder, name)
                with open(path, "w", encoding="ascii") as out:
                    out.write(text)
                os.chmod(path, mode)
            for ask, wrong in [(Programs(folder, []).order, "to its end .status 3"), (Programs(folder, []).why, "cannot be run"),
                               (Programs(folder, []).pivots, "is missing"), (Programs(folder, ["/nowhere"]).order, "cannot be run")]:
                with self.assertRaisesRegex(Failed, wrong):
                    ask(b"x" * 100000)
            self.assertEqual(Programs(folder, [sys.executable]).stiffness(b""), Stiffness(1.0, -5))


class Reasons(unittest.TestCase):
    """Refusals in a sentence."""

    def test_sentences(self) -> None:
        """Each place that panel_why prints, and each number."""
        for refused, parts in [
            (Refused(6, "column 1"), ["singular", "pad 1 moves no reading"]), (Refused(6, "column 2"), ["what pad 2 does", "what pad 1 does"]),
            (Refused(6, "column 64"), ["pad 64", "what pads 1 to 63 do,", "column 64"]),
            (Refused(7, "factoring: step 2, column 3, row 4"), ["too large", "factoring", "step 2", "pad 3", "row 4"]),
            (Refused(7, "solving: upper pass, column 1, row 2"), ["too large", "the load of pad 2"]),
            (Refused(7, "solving: lower pass, column 1, row 3"), ["too large", "row 3 of the lower pass"]),
            (Refused(1), ["1 to 64"]), (Refused(3), ["length"]), (Refused(5), ["not finite"]), (Refused(6), ["singular"]), (Refused(7), ["too large"]),
            (Refused(8), ["no panel file"]), (Refused(9), ["refused"]), (Refused(7, "elsewhere"), ["too large"]),
        ]:
            told = reasons.sentence(refused)
            for part in parts:
                self.assertIn(part, told)
            self.assertRegex(told, r"^[A-Z].*\.$")

    def test_crossings(self) -> None:
        """Every refused file of crossings/ has its own sentence, with the place where there is one."""
        for name in os.listdir(os.path.join(TOP, "crossings")):
            if name.endswith(".lxp"):
                refused = StandIns().why(crossing(name))
                if refused and refused.place:
                    self.assertNotIn(reasons.sentence(refused), reasons.MEANINGS.values(), name)
