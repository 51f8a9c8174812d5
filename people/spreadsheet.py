"""A crossing as a spreadsheet's text: a row for each reading, with the effect of each pad on it and then the reading itself.

Cells are parted by commas or tabs, with the point as decimal mark, or by semicolons, with the decimal comma: never two ways to read a cell."""
from __future__ import annotations

import codecs
import csv
import io
import re
from dataclasses import dataclass
from typing import List, Sequence, Tuple

import doubles

MOST_PADS = 64
MOST_BYTES = 16 * 1024 * 1024
MOST_FAULTS = 20
MARKS = {",": "commas", ";": "semicolons", "\t": "tabs"}

Row = Tuple[int, List[str]]  # its number as the spreadsheet counts, from 1, and its cells


class BadSheet(Exception):
    """What is wrong with a sheet, one line each."""

    def __init__(self, *faults: str) -> None:
        super().__init__(*faults)
        self.faults = list(faults)


@dataclass(frozen=True)
class Crossing:
    """Row i: how each pad moves reading i; and the readings."""

    effects: List[List[float]]
    readings: List[float]

    def numbers(self) -> List[float]:
        """As a panel file has them: the matrix column by column, then the readings."""
        return [row[pad] for pad in range(len(self.readings)) for row in self.effects] + self.readings


def crossing_of(pads: int, numbers: Sequence[float]) -> Crossing:
    """The crossing whose numbers stand as in a panel file."""
    effects = [list(numbers[reading:pads * pads:pads]) for reading in range(pads)]
    return Crossing(effects, list(numbers[pads * pads:]))


def written(crossing: Crossing) -> str:
    """The sheet of a crossing, with a head row, parted by commas."""
    pads = len(crossing.readings)
    rows = [[f"pad {pad}" for pad in range(1, pads + 1)] + ["reading"]]
    rows += [[doubles.shortest(number) for number in [*row, reading]] for row, reading in zip(crossing.effects, crossing.readings)]
    return "".join(",".join(row) + "\n" for row in rows)


def read(data: bytes) -> Crossing:
    """The crossing of a sheet; BadSheet where it is none, with every bad cell."""
    text = decoded(data)
    mark = parting(text)
    rows = body(cells(text, mark), mark)
    faults = [fault for number, row in rows for fault in row_faults(number, row, mark)]
    if faults:
        more = [f"and {len(faults) - MOST_FAULTS} more cells"] if len(faults) > MOST_FAULTS else []
        raise BadSheet(*faults[:MOST_FAULTS], *more)
    numbers = [[value(cell, mark) for cell in row] for _, row in rows]
    return Crossing([row[:-1] for row in numbers], [row[-1] for row in numbers])


# ---- from bytes to rows

def decoded(data: bytes) -> str:
    """The text of a file, without its byte-order mark: UTF-8, or UTF-16 where the mark says so."""
    if len(data) > MOST_BYTES:
        raise BadSheet(f"this is too large for a sheet of {MOST_PADS} pads")
    if data.startswith(b"PK\3\4"):
        raise BadSheet("this is a workbook and no text: save the sheet as CSV")
    wide = data.startswith((codecs.BOM_UTF16_LE, codecs.BOM_UTF16_BE))
    try:
        text = data.decode("utf-16" if wide else "utf-8-sig")
    except UnicodeDecodeError as why:
        raise BadSheet(f"this is not text: byte {why.start + 1} is not {'UTF-16' if wide else 'UTF-8'}") from None
    control = re.search(r"[\0-\x08\x0e-\x1f]", text)
    if control:
        raise BadSheet(f"this is not text: it has a character {ord(control[0])}")
    return text


def parting(text: str) -> str:
    """What parts the cells: the last line that is not blank has numbers alone, so a semicolon or a tab there is no part of a cell."""
    last = ([line for line in text.splitlines() if line.strip(" ,;\t\u00a0\"")] or [""])[-1]
    return "\t" if "\t" in last else ";" if ";" in last else ","


def cells(text: str, mark: str) -> List[Row]:
    """The rows that are not blank, without the columns at the right that are empty in all rows behind the first."""
    reader = csv.reader(io.StringIO(text, newline=""), delimiter=mark, strict=True)
    rows: List[Row] = []
    number = 0
    try:
        for number, row in enumerate(reader, 1):
            if any(map(str.strip, row)):
                rows.append((number, [cell.strip() for cell in row]))
    except csv.Error as why:
        raise BadSheet(f"row {number + 1}: a cell's quotes are wrong ({why})") from None
    width = max((column for _, row in rows[1:] or rows for column, cell in enumerate(row, 1) if cell), default=0)
    return [(number, row if any(row[width:]) else row[:width]) for number, row in rows]


def body(rows: List[Row], mark: str) -> List[Row]:
    """The rows of numbers, without the head row; each has one cell more than there are rows."""
    head = f" (row {rows[0][0]} is taken as the head row)" if rows and is_head(rows, mark) else ""
    rows = rows[1:] if head else rows
    if not rows:
        raise BadSheet("there are no rows of numbers" + head)
    pads, (number, first) = len(rows), rows[0]
    if pads > MOST_PADS:
        raise BadSheet(f"there are {pads} rows of numbers, and a panel has 1 to {MOST_PADS} pads: one row for each reading")
    ragged = [f"row {other} has {len(row)} cells, and row {number} has {len(first)}" for other, row in rows if len(row) != len(first)]
    if ragged:
        raise BadSheet(*ragged[:MOST_FAULTS])
    if len(first) != pads + 1:
        raise BadSheet(f"there are {pads} rows of numbers with {len(first)} cells each, parted by {MARKS[mark]}: {pads} rows ask for "
                       f"{pads + 1} cells, an effect of each of {pads} pads and the reading{head}")
    return rows


def is_head(rows: List[Row], mark: str) -> bool:
    """Whether the first row has no number; or has a word, and is the one row that is too many."""
    words = [cell for cell in rows[0][1] if cell and fault(cell, mark)]
    numbers = [cell for cell in rows[0][1] if cell and not fault(cell, mark)]
    return bool(words) and (not numbers or len(rows) == len(rows[-1][1]))


# ---- one cell

def row_faults(number: int, row: List[str], mark: str) -> List[str]:
    """What is wrong with the cells of a row, each with its place."""
    found = [(column, fault(cell, mark)) for column, cell in enumerate(row, 1)]
    return [f"row {number}, column {column} ({letter(column)}{number}): {wrong}" for column, wrong in found if wrong]


def letter(column: int) -> str:
    """The name that a spreadsheet gives to a column: A, B, .. Z, AA."""
    name = ""
    while column:
        column, last = divmod(column - 1, 26)
        name = chr(65 + last) + name
    return name


def plain(cell: str, mark: str) -> str:
    """A cell with the point as decimal mark."""
    return cell.replace(",", ".") if mark == ";" else cell


def value(cell: str, mark: str) -> float:
    """The double nearest to a cell's number, ties to even."""
    return float(plain(cell, mark))


def fault(cell: str, mark: str) -> str:
    """What is wrong with a cell, in words; empty for a number that can be taken."""
    if not cell:
        return "the cell is empty"
    told = repr(cell if len(cell) <= 40 else cell[:37] + "...")
    own, other = (",", ".") if mark == ";" else (".", ",")
    if re.fullmatch(rf"[+-]?([0-9]+({re.escape(own)}[0-9]*)?|{re.escape(own)}[0-9]+)([eE][+-]?[0-9]+)?", cell):
        return f"{told} is too large: a double ends at about 1.8e308" if value(cell, mark) in (float("inf"), float("-inf")) else ""
    if re.fullmatch(r"[+-]?(nan|inf|infinity)", cell, re.I):
        return f"{told} is not finite"
    if cell.startswith("#"):
        return f"{told} is an error of the spreadsheet"
    if re.fullmatch(r"[+-]?[0-9.,' \u00a0\u202f\u2019]+([eE][+-]?[0-9]+)?", cell):
        names = {".": "point", ",": "comma"}
        return f"{told} is no plain number: with {MARKS[mark]} between the cells the decimal mark is the {names[own]}" + (
            f", and the {names[other]} has no meaning" if other in cell else ", once, and nothing parts the thousands")
    if cell[0] in "\u2212\u2013\u2014":
        return f"{told} begins with a dash that is no minus sign"
    return f"{told} is not a number"
