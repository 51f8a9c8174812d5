"""The proved programs, run, and what they print taken apart. What is not of the form that they print is an error, and no answer."""
from __future__ import annotations

import os
import re
import subprocess
from dataclasses import dataclass
from typing import List, Sequence, Tuple, Union

import doubles

MOST_BYTES = 33287  # what the programs hold of a file: one more than the longest panel file has
HEX = r"([0-9a-f]{16})"


class Failed(Exception):
    """A program that is missing, cannot be run, or prints no answer."""


@dataclass(frozen=True)
class Refused:
    """The number of a refusal, and the line behind it where `panel_why` has one."""

    number: int
    place: str = ""


@dataclass(frozen=True)
class Load:
    """A pad and what it carries."""

    pad: int
    load: float


@dataclass(frozen=True)
class Stiffness:
    """The scaled determinant: significand times two to the power of the exponent."""

    significand: float
    exponent: int


@dataclass(frozen=True)
class Pivots:
    """How the elimination went: its toss-ups, the greatest magnitude of the matrix, and the greatest and the least of the pivots."""

    toss_ups: int
    matrix: float
    greatest: float
    least: float


class Programs:
    """The folder of the programs, and the words that come before the name of one: an emulator, or a loader with its library."""

    def __init__(self, folder: str, before: Sequence[str]) -> None:
        self.folder, self.before = folder, list(before)

    def has(self, name: str) -> bool:
        """Whether this program is there."""
        return os.path.exists(os.path.join(self.folder, name))

    def printed(self, name: str, given: bytes, *words: str) -> bytes:
        """What a program prints when it is given this on standard input."""
        path = os.path.join(self.folder, name)
        if not self.has(name):
            raise Failed(f"the program {path} is missing")
        try:
            done = subprocess.run([*self.before, path, *words], input=given, stdout=subprocess.PIPE, stderr=subprocess.PIPE)
        except OSError as why:
            raise Failed(f"the program {path} cannot be run: {why.strerror}") from None
        if done.returncode:
            raise Failed(f"the program {name} could not be run to its end (status {done.returncode})")
        return done.stdout

    def answer(self, pattern: str, name: str, given: bytes, *words: str) -> Union[re.Match[str], Refused]:
        """The refusal that a program prints, or the match of its whole text with a pattern."""
        text = self.printed(name, given, *words).decode("ascii", "replace")
        refused = re.fullmatch(r"refused ([1-9])\n(?:([a-z][^\n]*)\n)?", text)
        if refused:
            return Refused(int(refused[1]), refused[2] or "")
        found = re.fullmatch(pattern, text)
        if not found:
            raise Failed(f"the program {name} gave no answer")
        return found

    def order(self, file: bytes) -> Union[List[Load], Refused]:
        """The pads of a panel file with their loads, in the order to lift them."""
        found = self.answer(rf"pads (\d+)\n((?:\d+ {HEX}\n)+)", "panel_order", file)
        if isinstance(found, Refused):
            return found
        loads = [Load(int(pad), load) for pad, load in numbered(found[2])]
        if sorted(each.pad for each in loads) != list(range(1, int(found[1]) + 1)):
            raise Failed("the program panel_order gave no answer")
        return loads

    def why(self, file: bytes) -> Union[None, Refused]:
        """Why a panel file has no order; none where it has one."""
        found = self.answer(r"no reason\n", "panel_why", file)
        return found if isinstance(found, Refused) else None

    def stiffness(self, file: bytes) -> Union[Stiffness, Refused]:
        """The scaled determinant of a panel file's matrix."""
        found = self.answer(rf"{HEX} (-?\d+)\n", "panel_stiffness", file)
        return found if isinstance(found, Refused) else Stiffness(doubles.from_hex(found[1]), int(found[2]))

    def moves(self, file: bytes, pad: int) -> Union[List[float], Refused]:
        """How much the load of a pad grows when each reading grows by one."""
        found = self.answer(rf"((?:\d+ {HEX}\n)+)", "panel_moves", file, str(pad))
        if isinstance(found, Refused):
            return found
        moves = numbered(found[1])
        if [number for number, _ in moves] != list(range(1, len(moves) + 1)):
            raise Failed("the program panel_moves gave no answer")
        return [move for _, move in moves]

    def pivots(self, file: bytes) -> Union[Pivots, Refused]:
        """How the elimination of a panel file's matrix went."""
        found = self.answer(rf"toss-ups (\d+)\nmatrix {HEX}\ngreatest {HEX}\nleast {HEX}\n", "panel_pivots", file)
        return found if isinstance(found, Refused) else Pivots(int(found[1]), *map(doubles.from_hex, found.groups()[1:]))

    def season(self, names: bytes) -> List[int]:
        """The sixteen counts of a season, of the panel files that are named one a line."""
        found = self.answer(r"(?:\d+\n){16}", "panel_season", names)
        if isinstance(found, Refused):
            raise Failed("the program panel_season gave no answer")
        return [int(count) for count in found[0].split()]

    def write(self, numbers: Sequence[float], pads: int) -> bytes:
        """The bytes of a panel file, from its matrix column by column and its readings."""
        given = "".join(f"{line}\n" for line in [str(pads), *map(doubles.to_hex, numbers)])
        made = self.printed("panel_write", given.encode("ascii"))
        if not made.startswith(b"LXP") or len(made) != 6 + 8 * len(numbers):
            raise Failed("the program panel_write gave no panel file: " + made[:40].decode("ascii", "replace").strip())
        return made


def numbered(lines: str) -> List[Tuple[int, float]]:
    """Lines of a number and the bits of a double."""
    return [(int(number), doubles.from_hex(bits)) for number, bits in (line.split() for line in lines.splitlines())]
