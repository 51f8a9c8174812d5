"""LU decomposition with row pivoting of small matrices, and the order in which pads are lifted, by the proved library of this repository.

    >>> import wejdarox
    >>> crossing = wejdarox.factor([[0, 1], [2, 0]])
    >>> crossing.solve([5, 8])
    [4.0, 5.0]
    >>> wejdarox.rank([4.0, 5.0])
    [2, 1]

What cannot be answered raises `Refused`, with a number and words. Numbers go in as lists, or as anything with the buffer protocol: doubles that
lie column after column (numpy's order='F') are not copied.
"""
from ._library import library as _library
from ._matrix import Matrix
from .lu import Lu, Scaled, Why, add_column, factor, rank, rank_all, remove_column, solve, why_factor
from .panels import Pad, PadOrder, Panel, Season, moves, pad_order, read_panel, season, stiffness, text, why, write_panel
from .refusals import Refused

_number = _library.wejdarox_version()
__version__ = "%d.%d.%d" % (_number // 1000000, _number // 1000 % 1000, _number % 1000)

__all__ = ["Lu", "Matrix", "Pad", "PadOrder", "Panel", "Refused", "Scaled", "Season", "Why", "add_column", "factor", "moves", "pad_order", "rank", "rank_all",
           "read_panel", "remove_column", "season", "solve", "stiffness", "text", "why", "why_factor", "write_panel"]
