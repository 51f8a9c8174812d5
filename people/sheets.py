"""What is shown of a panel file: its name and its pads in order with notes, or the reason why there is no order."""
from __future__ import annotations

from dataclasses import dataclass, field
from typing import List, Optional, Union

import notes
import reasons
from files import Unreadable, panel_bytes
from programs import Load, Programs, Refused

Moves = List[Union[List[float], Refused]]  # for each pad, from pad 1 on


@dataclass(frozen=True)
class Sheet:
    """A panel file's answer. Just one of loads, refused and unreadable says something."""

    name: str
    loads: List[Load] = field(default_factory=list)
    notes: List[str] = field(default_factory=list)
    refused: Optional[Refused] = None
    unreadable: str = ""
    moves: Moves = field(default_factory=list)

    @property
    def reason(self) -> str:
        """Why there is no order, in a sentence; empty where there is one."""
        return self.unreadable or (reasons.sentence(self.refused) if self.refused else "")


def sheet_of(programs: Programs, name: str, with_moves: bool) -> Sheet:
    """The sheet of a named file, with the moves of all its pads where they are wanted."""
    try:
        file = panel_bytes(name)
    except Unreadable as why:
        return Sheet(name, unreadable=str(why))
    order = programs.order(file)
    if isinstance(order, Refused):
        return Sheet(name, refused=programs.why(file) or order)
    moves = [programs.moves(file, pad) for pad in range(1, len(order) + 1)] if with_moves else []
    return Sheet(name, order, notes.notes(programs, file, order), moves=moves)


def status(sheets: List[Sheet]) -> int:
    """0 where every file has an order, 2 where one could not be read, else 1."""
    return 2 if any(each.unreadable for each in sheets) else int(any(each.refused for each in sheets))


def counted(number: int, what: str) -> str:
    """A number of things, in words."""
    return f"{number:,} {what}{'' if number == 1 else 's'}"


def summary(sheets: List[Sheet]) -> List[str]:
    """How many files have an order; then a line for each that has none."""
    refused = [each for each in sheets if each.refused]
    unreadable = [each for each in sheets if each.unreadable]
    ordered = len(sheets) - len(refused) - len(unreadable)
    lines = [f"{counted(len(sheets), 'file')}: {ordered:,} with an order, {len(refused):,} refused"
             + (f", {len(unreadable):,} that could not be read" if unreadable else "")]
    lines += [f"refused {each.refused.number}: {each.name}" for each in refused if each.refused]
    return lines + [f"not read: {each.name}" for each in unreadable]
