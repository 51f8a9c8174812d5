"""The night sheet as text, 80 columns wide: rank, pad, load, a bar, a box to tick; then notes, or the reason where there is no order."""
from __future__ import annotations

import textwrap
from typing import List

import doubles
from files import shown
from programs import Load
from sheets import Sheet, counted, summary

WIDTH = 80
BAR = 38
LEGEND = "the greatest load first. Bars: # one way, = the other, . very short."


def filled(text: str, first: str = "", rest: str = "") -> str:
    """A sentence in lines of the sheet's width."""
    return textwrap.fill(text, WIDTH, initial_indent=first, subsequent_indent=rest, break_on_hyphens=False)


def bar(load: float, most: float) -> str:
    """A load's bar beside that of the greatest."""
    if not load:
        return ""
    return ("#" if load > 0 else "=") * round(BAR * (abs(load) / most)) or "."


def line(rank: int, each: Load, most: float) -> str:
    """The line of a pad. A load has 24 characters at most, its sign among them."""
    digits = doubles.shortest(each.load)
    load = digits if digits.startswith("-") else " " + digits
    return f"{rank:>4}  {each.pad:>3}  {load:<24}  {bar(each.load, most):<{BAR}}  [ ]"


def text(sheet: Sheet) -> str:
    """The sheet of one file."""
    lines = [filled(f"Night sheet: {shown(sheet.name)}")]
    if sheet.reason:
        number = f"refused {sheet.refused.number}" if sheet.refused else "not read"
        return "\n".join([*lines, "", f"No order: {number}.", filled(sheet.reason)]) + "\n"
    most = abs(sheet.loads[0].load)
    lines += [f"{counted(len(sheet.loads), 'pad')}, {LEGEND}", "", f"rank  pad  {' load':<24}  {'':<{BAR}} done"]
    lines += [line(rank, each, most) for rank, each in enumerate(sheet.loads, 1)]
    return "\n".join(lines + noted(sheet.notes)) + "\n"


def noted(notes: List[str]) -> List[str]:
    """The notes below the pads."""
    return ["", *(filled(note, "Note: ", "      ") for note in notes)] if notes else []


def ending(sheets: List[Sheet]) -> str:
    """The summary behind the sheets of several files."""
    return "\n".join("Summary: " + shown(each) if not k else "  " + shown(each) for k, each in enumerate(summary(sheets))) + "\n"
