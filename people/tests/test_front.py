"""The whole way through ./panel-order, in the shape of an archive, with stand-ins for the programs; and in that of a checkout."""
from __future__ import annotations

import os
import pty
import shutil
import signal
import stat
import subprocess
import sys
import tempfile
import time
import unittest
from typing import Dict, List, Optional, Tuple

from helpers import TOP, StandIns, crossing, held, panel, put
from stand_in import PROGRAMS
import night
import spreadsheet
from sheets import sheet_of

UNAME = '#!/bin/sh\ncase $1 in -m) echo x86_64 ;; -s) echo Linux ;; -n) echo here ;; esac\n'
RT = '#!/bin/sh\nname=$(basename "$PWD")\necho "$name" >>"$CALLS"\nmkdir -p out\nln -sf "$STAND_INS/$name" out\necho "rt: running out/$name" >&2\n'


class Front(unittest.TestCase):
    """A folder for each test: the front command, people/, crossings/ and the programs' stand-ins."""

    def setUp(self) -> None:
        """Makes the folder."""
        self.work = tempfile.mkdtemp()
        self.addCleanup(shutil.rmtree, self.work)
        self.top = os.path.join(self.work, "a depot")
        os.makedirs(self.top + "/bin")
        for name in ("panel-order", "VERSION"):
            shutil.copy(os.path.join(TOP, name), self.top)
        shutil.copytree(os.path.join(TOP, "people"), self.top + "/people", ignore=shutil.ignore_patterns("tests", "__pycache__"))
        shutil.copytree(os.path.join(TOP, "crossings"), self.top + "/crossings")
        self.stand_ins = self.work + "/stand-ins"
        for name in PROGRAMS:
            put(f"{self.stand_ins}/{name}", f"#!/bin/sh\nexec '{sys.executable}' -ISB '{TOP}/people/tests/stand_in.py' {name} \"$@\"\n")
            os.symlink(f"{self.stand_ins}/{name}", f"{self.top}/bin/{name}")
        put(self.work + "/tools/uname", UNAME)
        os.symlink(sys.executable, self.work + "/tools/python3")
        self.variables: Dict[str, str] = dict(os.environ, PATH=self.work + "/tools:/usr/bin:/bin")

    def run_front(self, *words: str, given: Optional[bytes] = None, **how: object) -> Tuple[int, str, str]:
        """Status, standard output and standard error."""
        streams: Dict[str, object] = {"input": given} if given is not None else {"stdin": subprocess.DEVNULL}
        streams.update({"stdout": subprocess.PIPE, "stderr": subprocess.PIPE, "cwd": self.top, "env": self.variables}, **how)
        done = subprocess.run(["./panel-order", *words], timeout=120, **streams)  # type: ignore[call-overload]
        return done.returncode, (done.stdout or b"").decode("utf-8", "surrogateescape"), (done.stderr or b"").decode("utf-8", "surrogateescape")

    def names(self) -> List[str]:
        """The files of the folder."""
        return sorted(os.listdir(self.top))


class Sheets(Front):
    """--sheet."""

    def test_one(self) -> None:
        """One file, by name and from standard input; the example; a refused file."""
        wanted = night.text(sheet_of(StandIns(), os.path.join(self.top, "crossings/four-pads.lxp"), False)).split("\n", 1)[1]
        self.assertEqual(self.run_front("--sheet", "crossings/four-pads.lxp"), (0, "Night sheet: crossings/four-pads.lxp\n" + wanted, ""))
        for words in (["--sheet"], ["--sheet", "-"]):
            self.assertEqual(self.run_front(*words, given=crossing("four-pads.lxp")), (0, "Night sheet: standard input\n" + wanted, ""))
        self.assertIn("2 pads", self.run_front("--sheet", "--example")[1])
        status, out, err = self.run_front("crossings/singular.lxp", "--sheet")
        self.assertEqual((status, err), (1, ""))
        self.assertIn("No order: refused 6.", out)

    def test_alone(self) -> None:
        """Modules of the user's, in the folder or on Python's path, are not taken for ours; nothing is left behind."""
        for name in ("files", "page", "csv", "struct"):
            put(f"{self.top}/{name}.py", "raise SystemExit(9)\n", 0o644)
        before = self.names()
        self.variables["PYTHONPATH"] = self.top
        self.assertEqual(self.run_front("--sheet", "--example")[0], 0)
        self.assertEqual((self.names(), os.path.exists(self.top + "/people/__pycache__")), (before, False))

    def test_stopped(self) -> None:
        """Stopped from the keyboard it ends at once, and without a trace of Python."""
        os.unlink(self.top + "/bin/panel_order")
        put(self.top + "/bin/panel_order", f"#!/bin/sh\n: >>'{self.work}/begun'\nsleep 2\n")
        started = subprocess.Popen(["./panel-order", "--sheet", *["crossings/whole-case.lxp"] * 500], cwd=self.top, env=self.variables,
                                   stdin=subprocess.DEVNULL, stdout=subprocess.PIPE, stderr=subprocess.PIPE, start_new_session=True)
        while not os.path.exists(self.work + "/begun") and started.poll() is None:
            time.sleep(0.02)
        os.killpg(started.pid, signal.SIGINT)
        out, err = started.communicate(timeout=60)
        self.assertEqual((out, b"Traceback" in err), (b"", False))
        self.assertIn(started.returncode, (130, 2), "2 where the end of a program is seen before the key")

    def test_what_should_not_happen(self) -> None:
        """An error of ours has status 2, and not that of a refusal."""
        put(self.top + "/people/night.py", "def text(sheet):\n    raise ValueError('x')\n", 0o644)
        self.assertEqual(self.run_front("--sheet", "--example"), (2, "", "panel-order: this should not happen, and nothing more is answered: ValueError: x\n"))

    def test_many(self) -> None:
        """A folder and names; the order of the names; a summary; a file that is not there does not stop the others."""
        status, out, err = self.run_front("--sheet", "crossings")
        shown = [line[13:] for line in out.splitlines() if line.startswith("Night sheet: ")]
        self.assertEqual((status, err, shown), (1, "", sorted("crossings/" + name for name in os.listdir(self.top + "/crossings") if name.endswith(".lxp"))))
        self.assertIn("\nSummary: 10 files: 4 with an order, 6 refused\n  refused 3: crossings/cut-short.lxp\n", out)
        status, out, err = self.run_front("--sheet", "crossings/whole-case.lxp", "nothing", "crossings/equal-loads.lxp")
        shown = [line[13:] for line in out.splitlines() if line.startswith("Night sheet: ")]
        self.assertEqual((status, shown), (2, ["crossings/whole-case.lxp", "nothing", "crossings/equal-loads.lxp"]))
        self.assertEqual(err, "panel-order: nothing: cannot be read: No such file or directory\n")
        self.assertIn("3 files: 2 with an order, 0 refused, 1 that could not be read\n  not read: nothing\n", out)

    def test_folders(self) -> None:
        """A folder without panel files, and names with odd letters."""
        os.mkdir(self.top + "/empty")
        self.assertEqual(self.run_front("--sheet", "empty"), (2, "", "panel-order: empty: no file *.lxp in this folder\n"))
        shutil.copy(self.top + "/crossings/whole-case.lxp", self.top + "/--sheet \udcff\n.LXP")
        status, out, err = self.run_front("--sheet", "--", "--sheet \udcff\n.LXP")
        self.assertEqual((status, out.splitlines()[0]), (0, "Night sheet: --sheet \\udcff\\n.LXP"))
        self.assertIn("--sheet \\udcff\\n.LXP", self.run_front("--sheet", ".")[1])

    def test_missing_pivots(self) -> None:
        """Without the program that counts toss-ups there is no note, and no complaint."""
        with open(self.top + "/toss.lxp", "wb") as out:
            out.write(panel([[1.0, 1.0], [1.0, -1.0]], [1.0, 2.0]))
        self.assertIn("toss-up", self.run_front("--sheet", "toss.lxp")[1])
        os.unlink(self.top + "/bin/panel_pivots")
        status, out, err = self.run_front("--sheet", "toss.lxp")
        self.assertEqual((status, err, "Note" in out), (0, "", False))
        os.unlink(self.top + "/bin/panel_order")
        status, out, err = self.run_front("--sheet", "toss.lxp")
        self.assertEqual((status, out), (2, ""))
        self.assertIn("bin/panel_order is missing", err)

    def test_output(self) -> None:
        """An output that cannot be written is told, without a trace of Python."""
        for words in (["--sheet", "crossings"], ["--csv", "crossings/four-pads.lxp"], ["--make", "sheet.csv", "-"], ["--sheet", "--example", "--html", "-"]):
            put(self.top + "/sheet.csv", "1,2\n")
            with open("/dev/full", "wb") as full:
                status, _, err = self.run_front(*words, stdout=full)
            self.assertEqual((status, "could not be written" in err, "Traceback" in err), (2, True, False), err)
            reader, writer = os.pipe()
            os.close(reader)
            status, _, err = self.run_front(*words, stdout=writer)
            os.close(writer)
            self.assertEqual((status, "could not be written" in err, "Traceback" in err), (2, True, False), err)

    def test_streams(self) -> None:
        """An input that is closed or a folder, and a closed standard error: nothing of it gets into the answer."""
        for words in (["--sheet"], ["--csv", "-"], ["--make", "-", "-"], ["--season", "--html", "-"]):
            status, out, err = self.run_front(*words, stdin=None, preexec_fn=lambda: os.close(0))
            self.assertEqual((status, out, "standard input is closed" in err or "no file given" in err), (2, "", True), err)
            folder = os.open(self.top, os.O_RDONLY)
            status, out, err = self.run_front(*words, stdin=folder)
            os.close(folder)
            self.assertEqual((status, out, err), (2, "", "panel-order: standard input is a folder\n"))
        for words in (["--sheet", "nothing", "crossings/whole-case.lxp"], ["--sheet", "nothing"], ["--csv", "nothing"]):
            told = self.run_front(*words)[1]
            self.assertEqual(self.run_front(*words, stderr=None, preexec_fn=lambda: os.close(2))[:2], (2, told))

    def test_progress(self) -> None:
        """On a terminal a long list shows how far it is, and the line is gone at the end."""
        for name, wait in (("panel_order", "0.1"), ("panel_why", "0.3")):
            os.unlink(f"{self.top}/bin/{name}")
            put(f"{self.top}/bin/{name}", f"#!/bin/sh\nsleep {wait}\necho refused 3\n")
        outer, inner = pty.openpty()
        status, out, _ = self.run_front("--sheet", *["crossings/cut-short.lxp"] * 40, stderr=inner)
        os.close(inner)
        told = ""
        try:
            while part := os.read(outer, 4096):
                told += part.decode()
        except OSError:
            pass
        os.close(outer)
        self.assertEqual((status, out.count("No order")), (1, 40))
        self.assertRegex(told, r"panel-order: \d+ of 40 files")
        self.assertTrue(told.endswith("\r\033[K"), told[-40:])
        self.assertNotIn("files", self.run_front("--sheet", *["crossings/cut-short.lxp"] * 3)[2], "not where nobody sees it")


class Pages(Front):
    """--html."""

    def test_pages(self) -> None:
        """A sheet, the moves of all pads, both, several files, a season."""
        four = "crossings/four-pads.lxp"
        for words, has, has_not in [
            (["--sheet", four], ["Night sheet: crossings/four-pads.lxp"], ["Which reading", "Accepted crossings"]),
            (["--moves", "all", four], ["Which reading moves which pad: crossings/four-pads.lxp"], ["Night sheet:"]),
            (["--sheet", "--moves", "all", four], ["Night sheet: crossings/four-pads.lxp", "Which reading moves"], []),
            (["--sheet", "crossings"], ["10 files: 4 with an order, 6 refused", "Accepted crossings", "Night sheet: crossings/singular.lxp"],
             ["Which reading"]),
        ]:
            status, out, err = self.run_front(*words, "--html", "out.html")
            self.assertEqual((status, out, err), (int("crossings" in words), "", "panel-order: out.html: a page to print on A4\n"))
            made = held(self.top + "/out.html").decode("utf-8")
            self.assertEqual([part for part in has if part not in made] + [part for part in has_not if part in made], [])
        listed = "".join(f"crossings/{name}\n" for name in sorted(os.listdir(self.top + "/crossings")))
        status, out, err = self.run_front("--season", "--html", "-", given=listed.encode())
        self.assertEqual((status, err, "13 pads of the accepted files" in out), (0, "", True))
        self.assertEqual([name for name in self.names() if name.endswith(".part")], [])

    def test_what_is_replaced(self) -> None:
        """A page takes the place of a page, and of nothing else: the first panel file of a list is not lost."""
        before = held(self.top + "/crossings/four-pads.lxp")
        status, out, err = self.run_front("--sheet", "--html", "crossings/four-pads.lxp", "crossings/whole-case.lxp")
        self.assertEqual((status, out, held(self.top + "/crossings/four-pads.lxp")), (2, "", before))
        self.assertIn("is there and is no page of panel-order: it is left as it is", err)
        self.assertEqual(self.run_front("--sheet", "--example", "--html", "out.html")[0], 0)
        self.assertEqual(self.run_front("--sheet", "--example", "--html", "out.html")[0], 0)
        self.assertIn("could not be written", self.run_front("--sheet", "--example", "--html", "no/where.html")[2])
        self.assertIn("cannot be read: Is a directory", self.run_front("--sheet", "--example", "--html", "bin")[2])


class Spreadsheets(Front):
    """--make and --csv."""

    def test_there_and_back(self) -> None:
        """Every file of crossings/ that is one comes back to the byte; so does one of 64 pads."""
        with open(self.top + "/crossings/large.lxp", "wb") as out:
            out.write(panel([[(i * 37 + j * 11) % 97 / 7 - 3.3 for i in range(64)] for j in range(64)], [-0.0] * 63 + [5e-324]))
        names = [name for name in sorted(os.listdir(self.top + "/crossings")) if name.endswith(".lxp") and name != "cut-short.lxp"]
        for name in names:
            status, sheet, err = self.run_front("--csv", "crossings/" + name)
            self.assertEqual((status, err), (0, ""), name)
            put(self.top + "/sheet.csv", sheet)
            status, out, err = self.run_front("--make", "sheet.csv", "back.lxp")
            self.assertEqual((status, out), (0, ""), err)
            self.assertRegex(err, r"^panel-order: back.lxp: a panel file of \d+ pads?\n$")
            self.assertEqual(held(self.top + "/back.lxp"), held(self.top + "/crossings/" + name), name)
        self.assertEqual(len(names), 10)

    def test_streams(self) -> None:
        """Standard input and output, for both."""
        done = subprocess.run(["./panel-order", "--make", "-", "-"], input=b"pad;reading\n2,5;5\n", capture_output=True, cwd=self.top, env=self.variables)
        self.assertEqual((done.returncode, done.stdout, done.stderr), (0, panel([[2.5]], [5.0]), b""))
        self.assertEqual(self.run_front("--csv", given=done.stdout), (0, "pad 1,reading\n2.5,5\n", ""))

    def test_refused(self) -> None:
        """What the reader refuses is refused with its number; a matrix that cannot be factored is a sheet all the same."""
        for data, number in [(b"", 8), (b"LXP\1\0\0", 1), (crossing("cut-short.lxp"), 3), (panel([[float("nan")]], [1.0]), 5), (b"LXP\1\0A", 1)]:
            status, out, err = self.run_front("--csv", given=data)
            self.assertEqual((status, out, err.startswith("panel-order: ")), (1, f"refused {number}\n", True))
        self.assertEqual(self.run_front("--csv", "crossings/overflow-factoring.lxp")[0], 0)
        self.assertEqual(self.run_front("--csv", "nothing")[:2], (2, ""))

    def test_bad_sheets(self) -> None:
        """Every bad cell is named, with the sheet; nothing is written, and what was there stays."""
        put(self.top + "/sheet.csv", "a;b;reading\n1,5;x;2\n1.5;;3\n")
        shutil.copy(self.top + "/crossings/whole-case.lxp", self.top + "/there.lxp")
        for name in ("there.lxp", "new.lxp"):
            status, out, err = self.run_front("--make", "sheet.csv", name)
            self.assertEqual((status, out), (2, ""))
            lines = err.splitlines()
            self.assertEqual([line.split(": ")[:3] for line in lines[:3]], [["panel-order", "sheet.csv", place] for place in (
                "row 2, column 2 (B2)", "row 3, column 1 (A3)", "row 3, column 2 (B3)")])
            self.assertEqual(lines[3:], ["panel-order: nothing was written"])
        self.assertEqual((held(self.top + "/there.lxp"), os.path.exists(self.top + "/new.lxp")), (crossing("whole-case.lxp"), False))

    def test_what_is_replaced(self) -> None:
        """A panel file takes the place of a panel file, with its rights, through a link; of nothing else. Words that changed places do no harm."""
        sheet = "1,2\n"
        put(self.top + "/sheet.csv", sheet)
        put(self.top + "/other.csv", "3,4\n")
        shutil.copy(self.top + "/crossings/whole-case.lxp", self.top + "/there.lxp")
        os.chmod(self.top + "/there.lxp", 0o640)
        os.symlink("there.lxp", self.top + "/link.lxp")
        self.assertEqual(self.run_front("--make", "sheet.csv", "link.lxp")[0], 0)
        self.assertEqual((held(self.top + "/there.lxp"), os.path.islink(self.top + "/link.lxp")), (panel([[1.0]], [2.0]), True))
        self.assertEqual(stat.S_IMODE(os.stat(self.top + "/there.lxp").st_mode), 0o640)
        for words, part in [(["sheet.csv", "other.csv"], "other.csv is there and is no panel file"), (["sheet.csv", "sheet.csv"], "is no panel file"),
                            (["there.lxp", "sheet.csv"], "is no panel file"), (["there.lxp", "new.csv"], "not text"),
                            (["sheet.csv", "no/where.lxp"], "could not be written")]:
            status, out, err = self.run_front("--make", *words)
            self.assertEqual((status, out, part in err), (2, "", True), err)
        self.assertEqual((held(self.top + "/sheet.csv"), held(self.top + "/other.csv")), (sheet.encode(), b"3,4\n"))
        self.assertEqual(os.path.exists(self.top + "/new.csv"), False)

    def test_missing_writer(self) -> None:
        """Without the proved writer nothing is written."""
        put(self.top + "/sheet.csv", "1,2\n")
        os.unlink(self.top + "/bin/panel_write")
        status, out, err = self.run_front("--make", "sheet.csv", "new.lxp")
        self.assertEqual((status, out, "panel_write is missing" in err, os.path.exists(self.top + "/new.lxp")), (2, "", True, False))

    def test_limits(self) -> None:
        """What the sheets take is what the programs take."""
        self.assertEqual(spreadsheet.MOST_PADS, 64)


class Words(Front):
    """What is asked, and what is missing."""

    def test_usage(self) -> None:
        """Words that are no question, in a sentence."""
        for words, part in [
            (["--sheet", "--csv", "a"], "--sheet and --csv are two questions"), (["--sheet", "-x"], "unknown option -x"),
            (["--html"], "needs the name of the page"),
            (["--html", "o", "a"], "--html goes with"), (["--sheet", "--moves", "2", "a"], "takes the word all"),
            (["--moves", "all", "--sheet", "a"], "needs --html"),
            (["--csv", "--html", "o", "a"], "--csv makes no page"), (["--make", "a"], "takes two files"), (["--make", "a", "b", "c"], "takes two files"),
            (["--csv", "a", "b"], "more than one file"), (["--sheet", ""], "name of a file is empty"),
            (["--sheet", "--html", "", "a"], "name of a file is empty"),
            (["--sheet", "--example", "a"], "--example takes no file"), (["--make", "--example"], "--example takes no file"),
            (["--sheet", "--why", "a"], "two questions"),
            (["--season", "--sheet", "a"], "two questions"), (["--season", "--moves", "all", "--html", "o", "a"], "--moves and --season are two questions"),
            (["--html", "a", "--html", "b"], "given twice"), (["--stiffness", "--sheet", "a"], "two questions"),
        ]:
            status, out, err = self.run_front(*words)
            self.assertEqual((status, out), (2, ""), words)
            self.assertIn(part, err)
            self.assertIn("panel-order --help", err)

    def test_terminal(self) -> None:
        """With no file and a terminal as input nothing waits."""
        outer, inner = pty.openpty()
        status, out, err = self.run_front("--sheet", stdin=inner)
        self.assertEqual((status, out, "no file given" in err), (2, "", True))
        os.close(inner)
        os.close(outer)

    def test_help(self) -> None:
        """Help and version win, wherever they stand; a file may be called like an option."""
        for words in (["--sheet", "--help"], ["-h", "--csv"]):
            status, out, err = self.run_front(*words)
            self.assertEqual((status, err), (0, ""))
            for option in ("--sheet", "--html OUT", "--make", "--csv"):
                self.assertIn(option, out)
        self.assertEqual(self.run_front("--sheet", "--version")[1], "panel-order " + held(TOP + "/VERSION").decode())
        self.assertIn("no such file", self.run_front("--", "--sheet")[2])

    def test_no_python(self) -> None:
        """Without python3 these say what they need, and the plain commands work."""
        bare = self.work + "/bare"
        os.mkdir(bare)
        for folder in ("/bin", "/usr/bin"):
            for name in os.listdir(folder):
                if not name.startswith("python") and not os.path.lexists(os.path.join(bare, name)):
                    os.symlink(os.path.join(folder, name), os.path.join(bare, name))
        if os.path.lexists(bare + "/uname"):
            os.unlink(bare + "/uname")
        put(bare + "/uname", UNAME)
        self.variables["PATH"] = bare
        for words in (["--sheet", "crossings"], ["--csv", "x"], ["--make", "a", "b"], ["--season", "--html", "o"]):
            status, out, err = self.run_front(*words)
            self.assertEqual((status, out), (2, ""))
            self.assertIn("need Python 3.8 or later, and there is no command python3", err)
        os.unlink(self.top + "/bin/panel_order")
        put(self.top + "/bin/panel_order", "#!/bin/sh\necho pads 1\n")
        self.assertEqual(self.run_front("crossings/whole-case.lxp"), (0, "pads 1\n", ""))
        self.assertEqual(self.run_front("--help")[0], 0)

    def test_checkout(self) -> None:
        """In a checkout the programs that a question needs are built first, those that are there as crates."""
        shutil.rmtree(self.top + "/bin")
        put(self.top + "/crates.txt", "panel_order:\n", 0o644)
        for crate in ("panel_order", "panel_why", "panel_stiffness", "panel_moves", "panel_season"):
            put(f"{self.top}/crates/{crate}/src/main.rt", "source\n", 0o644)
        put(self.work + "/tools/rt", RT)
        self.variables.update(CALLS=self.work + "/calls", STAND_INS=self.stand_ins)
        put(self.top + "/bad.csv", "1,x\n")
        put(self.top + "/crates/panel_write/src/main.rt", "source\n", 0o644)
        for words in (["--sheet", "-x"], ["--sheet", "people"], ["--sheet", "nothing", "no more"], ["--csv", "nothing"],
                      ["--make", "bad.csv", "new.lxp"], ["--make", "nothing", "new.lxp"],
                      ["--sheet", "--example", "--html", "VERSION"], ["--season", "--html", "out.html", "nothing"]):
            self.assertEqual(self.run_front(*words)[:2], (2, ""), words)
            self.assertEqual(os.path.exists(self.work + "/calls"), False, "a bad question builds nothing")
        shutil.rmtree(self.top + "/crates/panel_write")
        self.assertEqual(self.run_front("--csv", "crossings/whole-case.lxp")[:2], (0, "pad 1,pad 2,reading\n0,1,5\n2,0,8\n"))
        self.assertEqual(held(self.work + "/calls").split(), [b"panel_stiffness"])
        self.assertEqual(self.run_front("--sheet", "crossings/whole-case.lxp")[0], 0)
        self.assertEqual(held(self.work + "/calls").split(), [b"panel_stiffness", b"panel_order", b"panel_why", b"panel_moves", b"panel_season"])
        put(self.top + "/sheet.csv", "1,2\n")
        status, out, err = self.run_front("--make", "sheet.csv", "new.lxp")
        self.assertEqual((status, out), (2, ""))
        self.assertIn("target/bin/panel_write is missing", err)
        put(self.top + "/crates/panel_write/src/main.rt", "source\n", 0o644)
        self.assertEqual(self.run_front("--make", "sheet.csv", "new.lxp")[0], 0)
        self.assertEqual(held(self.top + "/new.lxp"), panel([[1.0]], [2.0]))
