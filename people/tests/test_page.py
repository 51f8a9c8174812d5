"""The page: whole by itself, well formed, without colour, and with every number that it is to show."""
from __future__ import annotations

import re
import unittest
from html.parser import HTMLParser
from typing import List
from xml.etree import ElementTree

from helpers import StandIns, crossing
import doubles
import drawing
import page
from figures import season_of
from programs import Load, Refused
from sheets import Sheet

EMPTY = {"meta", "rect", "path", "circle"}


class Reader(HTMLParser):
    """Reads a page and holds it to its tags being closed in order."""

    def __init__(self, text: str) -> None:
        super().__init__()
        self.open: List[str] = []
        self.seen: List[str] = []
        self.text = ""
        self.feed(text)
        self.close()
        assert not self.open, self.open

    def handle_starttag(self, tag: str, attrs: list) -> None:
        """A tag opens."""
        self.seen.append(tag)
        if tag not in EMPTY:
            self.open.append(tag)

    def handle_startendtag(self, tag: str, attrs: list) -> None:
        """A tag that holds nothing."""
        self.seen.append(tag)

    def handle_endtag(self, tag: str) -> None:
        """A tag closes."""
        assert self.open.pop() == tag, tag
        self.text += "\n" if tag == "td" else ""

    def handle_data(self, data: str) -> None:
        """Text, but that of the style."""
        self.text += "" if self.open[-1:] == ["style"] else data


def four(name: str = "four-pads.lxp") -> Sheet:
    """A sheet with moves."""
    programs, file = StandIns(), crossing("four-pads.lxp")
    loads = programs.order(file)
    assert not isinstance(loads, Refused)
    return Sheet(name, loads, ["A note."], moves=[programs.moves(file, pad) for pad in range(1, 5)])


class Page(unittest.TestCase):
    """The page as a whole."""

    def page(self, *sections: str) -> str:
        """A page, held to being whole, and without colour."""
        made = page.page("Night sheets", list(sections), "1.2.3")
        seen = Reader(made).seen
        self.assertEqual(set(seen) & {"script", "link", "img", "iframe", "object", "embed", "base", "form", "input"}, set(), "it needs nothing else")
        self.assertEqual(re.findall(r"https?:|url\(|@import|src=|href=|\son\w+=", made), [])
        for colour in re.findall(r"#([0-9a-f]{3,6})\b", made):
            self.assertEqual(len(set(colour)), 1, "grey: " + colour)
        for drawn in re.findall(r"<svg.*?</svg>", made, re.S):
            ElementTree.fromstring(drawn)
        self.assertIn("size: A4", made)
        self.assertTrue(page.is_page(made.encode()[:4096]))
        return made

    def test_night(self) -> None:
        """Rank, pad, load, bar and box of each pad; the notes; filled and hollow bars."""
        made = self.page(page.night(four()))
        number, drawn = r'<td class="n">(\d)</td>', r"<td>(<svg.*?</svg>)</td>"
        rows = re.findall(rf'<tr>{number}{number}<td class="load">(.*?)</td>{drawn}{drawn}</tr>', made)
        self.assertEqual([(int(rank), Load(int(pad), float(load))) for rank, pad, load, _, _ in rows], list(enumerate(four().loads, 1)))
        self.assertEqual([("#444" in bar, bar.count('fill="#fff"')) for _, _, _, bar, _ in rows], [(False, 1), (True, 0), (True, 0), (False, 1)])
        self.assertIn("<li>A note.</li>", made)
        self.assertEqual(made.count('class="box"'), 4)

    def test_bars(self) -> None:
        """From the middle to the right or to the left, as long as the load beside the greatest; a count's bar from the left."""
        for load, left, right in [(2.0, 100, 197), (-2.0, 3, 100), (1.0, 100, 148.5), (-0.5, 75.75, 100), (1e-9, 100, 100.5)]:
            found = re.search(r'<rect x="([\d.]+)" y="2" width="([\d.]+)"', drawing.load_bar(load, 2.0))
            assert found
            self.assertAlmostEqual(float(found[1]), left, delta=0.01)
            self.assertAlmostEqual(float(found[1]) + float(found[2]), right, delta=0.01)
        self.assertEqual([drawing.load_bar(0.0, most).count("<rect") for most in (1.0, 0.0)], [0, 0])
        self.assertEqual([re.findall(r'width="([\d.]+)"', drawing.count_bar(count, 8)) for count in (8, 2, 0)], [["196"], ["49"], []])

    def test_names(self) -> None:
        """A name is text, whatever is in it."""
        made = self.page(page.night(four("<b>&\"'\n\udcff.lxp")), page.moves(four("</title><script>")))
        self.assertIn("Night sheet: &lt;b&gt;&amp;&quot;&#x27;\\n\\udcff.lxp", made)

    def test_refused(self) -> None:
        """The number and the reason, on the sheet and in the place of the picture."""
        for part in (page.night, page.moves):
            made = Reader(self.page(part(Sheet("x", refused=Refused(6, "column 2"))))).text
            self.assertIn("No order: refused 6. The matrix is singular", made)
        self.assertIn("not read", self.page(page.night(Sheet("x", unreadable="x: cannot be read: gone"))))

    def test_moves(self) -> None:
        """A circle for each move, its area by its size, hollow where the load falls; and the greatest of each pad in words."""
        made = self.page(page.moves(four()))
        circles = re.findall(r'<circle cx="[\d.]+" cy="[\d.]+" r="([\d.]+)"( fill="#fff")?', made)
        moves = [move for row in four().moves for move in row]  # type: ignore[union-attr]
        self.assertEqual([bool(hollow) for _, hollow in circles], [move < 0 for move in moves])
        most = max(map(abs, moves))
        for (radius, _), move in zip(circles, moves):
            self.assertAlmostEqual(((float(radius) + 0.3) / 4.6) ** 2, abs(move) / most, delta=0.003)
        self.assertIn(f"the largest stands for {doubles.shortest(most)}.", made)
        self.assertIn("pad 1: reading 1, " + doubles.shortest(four().moves[0][0]), made)  # type: ignore[index]

    def test_moves_at_the_edge(self) -> None:
        """No move is empty, a little one a point, a pad without moves a broken line; sixty-four pads fit the page."""
        drawn = drawing.moves_picture([[1.0, 0.0], [1e-9, -1e-300]])
        self.assertEqual(re.findall(r'<circle [^/]*r="([\d.]+)"', drawn), ["4.3", ".3", ".3"])
        made = self.page(page.moves(Sheet("x", [Load(1, 1.0), Load(2, 1.0)], moves=[[0.0, 0.0], Refused(7)])))
        self.assertIn("pad 1: none", made)
        self.assertIn("pad 2: no moves, a result is too large", made)
        self.assertIn("stroke-dasharray", made)
        large = self.page(page.moves(Sheet("x", [Load(1, 1.0)], moves=[[1.0] * 64] * 64)))
        self.assertEqual((large.count("<circle"), "width:180mm" in large), (4096, True))

    def test_season(self) -> None:
        """Every count is there with its words and a bar; what no panel file is has no line."""
        counts = list(range(1, 17))
        told = Reader(self.page(page.season_page(season_of(counts)))).text
        for count in counts:
            self.assertRegex(told, rf"(?<!\d){count}(?!\d)")
        self.assertIn("55 files", told)
        told = Reader(self.page(page.season_page(season_of([4, 0, 0, 1, 0, 0, 2, 3, 0, 0, 13, 0, 0, 1, 3, 0])))).text
        self.assertNotIn("refused with 4", told)
        self.assertIn("13 pads of the accepted files carry something", told)
        self.assertIn("The season is full", self.page(page.season_page(season_of([4000] + [0] * 15))))
        self.page(page.season_page(season_of([0] * 16)))

    def test_overview(self) -> None:
        """In front of several files: the summary, and the season's figures where they are counted."""
        sheets = [four(), Sheet("b", refused=Refused(3))]
        told = Reader(self.page(page.overview(sheets, season_of([1] + [0] * 15)))).text
        self.assertIn("2 files: 1 with an order, 1 refused.", told)
        self.assertIn("refused 3: b", told)
        self.assertIn("Accepted crossings", told)
        self.assertNotIn("Accepted crossings", page.overview(sheets, None))
