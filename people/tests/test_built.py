"""The proved programs themselves, where this checkout has them built: they answer as the stand-ins do, to the bit."""
from __future__ import annotations

import os
import shutil
import subprocess
import tempfile
import unittest

from helpers import TOP, StandIns, crossing, held, panel
import night
from files import named
from sheets import sheet_of

NAMES = ["panel_order", "panel_why", "panel_stiffness", "panel_moves", "panel_season", "panel_write", "panel_pivots"]


def newest(folder: str) -> float:
    """When a file below a folder was changed last, but for what is built there."""
    return max(os.path.getmtime(os.path.join(where, name)) for where, _, names in os.walk(folder) if "/out" not in where[len(folder):] for name in names)


class Built(unittest.TestCase):
    """In the shape of an archive, so that nothing here builds them."""

    def setUp(self) -> None:
        """Takes the built programs, where they are not older than the crates."""
        self.built = [name for name in NAMES if os.path.exists(os.path.join(TOP, "target", "bin", name))]
        if not set(NAMES[:5]) <= set(self.built) or not shutil.which("rt"):
            self.skipTest("the programs are not built")
        paths = [os.path.join(TOP, "target", "bin", name) for name in self.built]
        if newest(os.path.join(TOP, "crates")) > min(map(os.path.getmtime, paths)):
            self.skipTest("the programs are older than the crates")
        self.top = tempfile.mkdtemp()
        self.addCleanup(shutil.rmtree, self.top)
        os.mkdir(self.top + "/bin")
        for path in [*paths, os.path.join(TOP, "panel-order"), os.path.join(TOP, "VERSION")]:
            shutil.copy(path, self.top + ("/bin" if path in paths else ""))
        for name in ("people", "crossings"):
            shutil.copytree(os.path.join(TOP, name), os.path.join(self.top, name))
        with open(self.top + "/crossings/toss.lxp", "wb") as out:
            out.write(panel([[1.0, -1.0, 1e-9], [1.0, 1.0, 0.0], [0.0, 2.0, 1e-9]], [1.0, 2.0, 3.0]))

    def run_front(self, *words: str) -> "subprocess.CompletedProcess[bytes]":
        """A run of the front command."""
        return subprocess.run([self.top + "/panel-order", *words], cwd=self.top, capture_output=True, timeout=120)

    def test_sheets(self) -> None:
        """Every sheet, with its notes."""
        programs = StandIns(*set(NAMES) - set(self.built))
        os.chdir(self.top)
        wanted = "\n".join(night.text(sheet_of(programs, name, False)) for name in named(["crossings"]))
        self.assertEqual(self.run_front("--sheet", "crossings").stdout.decode().split("\nSummary")[0], wanted)

    def test_page(self) -> None:
        """The moves and the season's figures get onto the page."""
        done = self.run_front("--sheet", "--moves", "all", "--html", "-", "crossings")
        self.assertEqual((done.returncode, done.stderr), (1, b""))
        for part in (b"11 files: 5 with an order, 6 refused", b"Accepted crossings", b"Which reading moves which pad: crossings/soft-ground.lxp"):
            self.assertIn(part, done.stdout)

    def test_there_and_back(self) -> None:
        """The proved writer gives the file back to the byte."""
        if "panel_write" not in self.built:
            self.skipTest("panel_write is not built")
        for name in ("four-pads.lxp", "overflow-factoring.lxp", "soft-ground.lxp"):
            with open(self.top + "/sheet.csv", "wb") as out:
                out.write(self.run_front("--csv", "crossings/" + name).stdout)
            self.assertEqual(self.run_front("--make", "sheet.csv", "back.lxp").returncode, 0)
            self.assertEqual(held(self.top + "/back.lxp"), crossing(name))
