"""A season's sixteen counts, in words."""
from __future__ import annotations

from dataclasses import dataclass
from typing import List

FILES = {
    0: "accepted: the pads have an order",
    1: "refused with 1: the number of pads is not from 1 to 64",
    3: "refused with 3: the file has not the length that its number of pads asks for",
    5: "refused with 5: a number of the matrix or the readings is not finite",
    6: "refused with 6: the matrix is singular",
    7: "refused with 7: a result is too large for a finite number",
    8: "refused with 8: no panel file of version 1, or none that can be read",
}
BANDS = ["below 2^-1022", "from 2^-1022 up to 2^-511", "from 2^-511 up to 1", "from 1 up to 2^512", "from 2^512 on"]
FULL = 4000


@dataclass(frozen=True)
class Count:
    """A count and what it is of."""

    what: str
    count: int


@dataclass(frozen=True)
class Season:
    """The counts of a season by their kinds."""

    files: List[Count]
    pads: int
    bands: List[Count]

    @property
    def all_files(self) -> int:
        """How many files the season has."""
        return sum(each.count for each in self.files)


def season_of(counts: List[int]) -> Season:
    """The sixteen counts that `panel_season` prints. No panel file is refused with 2, 4 or 9: these have a line where the count is not 0."""
    files = [Count(FILES.get(number, f"refused with {number}"), count) for number, count in enumerate(counts[:10]) if count or number in FILES]
    return Season(files, counts[10], [Count(band, count) for band, count in zip(BANDS, counts[11:])])
