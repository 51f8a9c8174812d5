"""One page of HTML that needs nothing else, prints on A4, and is read without colour: night sheets, moves, a season's figures."""
from __future__ import annotations

from html import escape
from typing import List, Optional

import doubles
import drawing
from figures import FULL, Count, Season
from files import shown
from programs import Refused
from sheets import Sheet, counted, summary

GENERATOR = '<meta name="generator" content="panel-order'
STYLE = """
@page { size: A4; margin: 14mm }
html { background: #fff; color: #000; font: 11pt/1.35 Arial, Helvetica, "DejaVu Sans", sans-serif }
body { max-width: 182mm; margin: 0 auto; padding: 6mm }
h1 { font-size: 17pt; margin: 0 0 2mm; overflow-wrap: anywhere }
h2 { font-size: 13pt; margin: 6mm 0 2mm; break-after: avoid }
p { margin: 0 0 3mm }
section { margin-bottom: 14mm }
table { border-collapse: collapse; width: 100%; margin-bottom: 4mm }
thead { display: table-header-group }
tr { break-inside: avoid }
th, td { border-bottom: .2mm solid #888; padding: .6mm 2mm; text-align: left; vertical-align: middle }
th { border-bottom: .5mm solid #000 }
.n { text-align: right; white-space: nowrap }
.load { font-family: "DejaVu Sans Mono", "Courier New", monospace; font-size: 10pt; white-space: pre }
.bar { display: block; width: 62mm; height: 4.34mm }
.box { display: block; width: 5mm; height: 5mm; margin-left: auto }
.moves { display: block; max-width: 100%; height: auto; margin-bottom: 3mm; break-inside: avoid }
.columns { columns: 2; list-style: none; padding: 0; margin: 0; font-size: 9.5pt }
.counts td:first-child { width: 50% }
.refused { border: .5mm solid #000; padding: 3mm }
.sign { margin-top: 8mm }
.sign span { display: inline-block; border-bottom: .2mm solid #000; width: 40mm; margin-right: 6mm }
@media screen and (max-width: 170mm) { .bar { width: 22vw } th, td { padding: .6mm 1mm } .columns { columns: 1 } }
@media print { body { max-width: none; padding: 0 } section { margin: 0 } section + section { break-before: page } }
"""


def page(title: str, sections: List[str], version: str) -> str:
    """The whole page."""
    return (f'<!DOCTYPE html>\n<html lang="en">\n<head>\n<meta charset="utf-8">\n{GENERATOR} {escape(version)}">\n'
            '<meta name="viewport" content="width=device-width, initial-scale=1">\n'
            f"<title>{escape(title)}</title>\n<style>{STYLE}</style>\n</head>\n<body>\n" + "\n".join(sections) + "\n</body>\n</html>\n")


def is_page(front: bytes) -> bool:
    """Whether a file is a page that was made here, by its first bytes."""
    return GENERATOR.encode("ascii") in front


def heading(what: str, name: str) -> str:
    """What a section is, and of which file."""
    return f"<h1>{what}: {escape(shown(name))}</h1>"


def refusal(sheet: Sheet) -> str:
    """Why there is no order."""
    number = f"refused {sheet.refused.number}" if sheet.refused else "not read"
    return f'<p class="refused"><strong>No order: {number}.</strong> {escape(sheet.reason)}</p>'


# ---- the night sheet

def night(sheet: Sheet) -> str:
    """The night sheet of a file."""
    head = heading("Night sheet", sheet.name)
    if sheet.reason:
        return f"<section>{head}\n{refusal(sheet)}</section>"
    most = abs(sheet.loads[0].load)
    rows = "".join(
        f'<tr><td class="n">{rank}</td><td class="n">{each.pad}</td><td class="load">{signed(each.load)}</td>'
        f"<td>{drawing.load_bar(each.load, most)}</td><td>{drawing.BOX}</td></tr>\n" for rank, each in enumerate(sheet.loads, 1))
    notes = "".join(f"<li>{escape(note)}</li>\n" for note in sheet.notes)
    return (f"<section>{head}\n<p>{counted(len(sheet.loads), 'pad')}, the greatest load first. A filled bar acts one way, a hollow one the "
            'other.</p>\n<table><thead><tr><th scope="col" class="n">rank</th><th scope="col" class="n">pad</th><th scope="col">load</th>'
            f'<th scope="col">beside the greatest</th><th scope="col" class="n">done</th></tr></thead>\n<tbody>\n{rows}</tbody></table>\n'
            + (f"<h2>Notes</h2>\n<ul>{notes}</ul>\n" if notes else "")
            + '<p class="sign">Date <span></span> Gang <span></span> Signed <span></span></p></section>')


def signed(number: float) -> str:
    """A number whose digits begin in one column, with a minus or without."""
    digits = doubles.shortest(number)
    return digits if digits.startswith("-") else " " + digits


# ---- the moves

def moves(sheet: Sheet) -> str:
    """Which reading moves which pad, as a picture, with the greatest move of each pad."""
    head = heading("Which reading moves which pad", sheet.name)
    if sheet.reason:
        return f"<section>{head}\n{refusal(sheet)}</section>"
    rows: List[Optional[List[float]]] = [None if isinstance(row, Refused) else row for row in sheet.moves]
    told = "".join(f"<li>{greatest(pad, row)}</li>\n" for pad, row in enumerate(rows, 1))
    most = max((abs(move) for row in rows for move in row or []), default=0.0)
    return (f"<section>{head}\n<p>A row for each pad, a column for each reading. The area of a circle says how much the load of the pad moves when "
            f"the reading grows by one; the largest stands for {doubles.shortest(most)}. Filled: the load grows. Hollow: it falls. "
            "A point: about a hundredth of the largest, or less. Empty: it does not move.</p>\n"
            f'{drawing.moves_picture(rows)}\n<h2>The reading that moves each pad most</h2>\n<ul class="columns">{told}</ul></section>')


def greatest(pad: int, row: Optional[List[float]]) -> str:
    """The greatest move of a pad, in words."""
    if row is None:
        return f"pad {pad}: no moves, a result is too large"
    reading = max(range(len(row)), key=lambda k: abs(row[k])) if any(row) else None
    return f"pad {pad}: none" if reading is None else f"pad {pad}: reading {reading + 1}, {doubles.shortest(row[reading])}"


# ---- several files

def overview(sheets: List[Sheet], season: Optional[Season]) -> str:
    """The summary of several files, and their season's figures."""
    first, *others = summary(sheets)
    listed = "".join(f"<li>{escape(shown(line))}</li>\n" for line in others)
    return (f"<section><h1>Crossings</h1>\n<p>{first}.</p>\n" + (f"<ul>{listed}</ul>\n" if listed else "")
            + (figures(season) if season else "") + "</section>")


def season_page(season: Season) -> str:
    """A season's figures by themselves."""
    return f"<section><h1>A season's figures</h1>\n{figures(season)}</section>"


def figures(season: Season) -> str:
    """A season's figures."""
    full = f"<p>The season is full: it has {FULL:,} files, and files behind the last of them are not counted.</p>\n" * (season.all_files >= FULL)
    return (f"<h2>{counted(season.all_files, 'file')} by their answer</h2>\n{full}{counts(season.files)}"
            f"<p>{counted(season.pads, 'pad')} of the accepted files carry something; idle ones are left off.</p>\n"
            f"<h2>Accepted crossings by the least magnitude on the diagonal of their factors</h2>\n{counts(season.bands)}")


def counts(told: List[Count]) -> str:
    """Counts with their bars."""
    most = max(each.count for each in told)
    rows = "".join(f'<tr><td>{escape(each.what)}</td><td class="n">{each.count:,}</td><td>{drawing.count_bar(each.count, most)}</td></tr>\n'
                   for each in told)
    return f'<table class="counts"><tbody>\n{rows}</tbody></table>\n'
