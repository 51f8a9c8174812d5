"""Panel files: read, written, answered, explained and counted over a season."""
import ctypes
from array import array
from ctypes import byref, c_double, c_int32, c_size_t, c_uint8
from typing import Any, Iterable, List, NamedTuple, Tuple

from ._lent import lend, shape_of
from ._library import MOST, TEXT, library
from ._matrix import Matrix
from .lu import Scaled
from .refusals import Refused, told


class Panel(NamedTuple):
    """A crossing: its matrix and its readings."""

    matrix: Matrix
    readings: List[float]


class Pad(NamedTuple):
    """A pad's number, counted from 1, and the load on it."""

    number: int
    load: float


class PadOrder(NamedTuple):
    """The pads in the order to lift them, and in how many columns the pivot was a toss-up."""

    pads: List[Pad]
    toss_ups: int


class Season(NamedTuple):
    """The figures of a season's files: those that are answered, those refused with 1 to 9, the pads with a load, the accepted files by band, and all files."""

    accepted: int
    refused: Tuple[int, ...]
    pads: int
    bands: Tuple[int, ...]
    files: int


def _bytes(file: Any) -> Tuple[Any, int]:
    """The bytes of a file, held for a call."""
    held = bytes(file)
    return ctypes.c_char_p(held), len(held)


def _at(held: Any) -> int:
    return ctypes.cast(held, ctypes.c_void_p).value


def read_panel(file: Any) -> Panel:
    """The matrix and the readings of a panel file. Refusals: 8, 1, 3, 5."""
    held, length = _bytes(file)
    matrix, readings, pads = (c_double * (MOST * MOST))(), (c_double * MOST)(), c_size_t()
    told(library.wejdarox_read_panel(_at(held), length, ctypes.addressof(matrix), MOST * MOST, ctypes.addressof(readings), MOST, byref(pads)))
    n = pads.value
    return Panel(Matrix(array("d", matrix[:n * n]), n, n), list(readings[:n]))


def write_panel(matrix: Any, readings: Any) -> bytes:
    """The panel file of a crossing: a matrix (a list of rows, or an array of two dimensions) and a reading for each row. Refusals: 1, 3, 5."""
    if isinstance(matrix, Matrix):
        matrix = matrix.tolist()
    with lend(matrix) as lent, lend(readings) as beside:
        n = beside.count
        rows, columns = shape_of(lent, (n, n) if lent.columns is None else None, "the matrix")
        if (rows, columns) != (n, n):
            raise Refused(3)
        room = 6 + 8 * (min(n, MOST) * min(n, MOST) + min(n, MOST))
        out, count = (c_uint8 * room)(), c_size_t()
        told(library.wejdarox_write_panel(n, lent.at, lent.count, beside.at, beside.count, ctypes.addressof(out), room, byref(count)))
    return bytes(out[:count.value])


def pad_order(file: Any) -> PadOrder:
    """The pads of a panel file in the order to lift them. Refusals: 8, 1, 3, 5, 6, 7."""
    held, length = _bytes(file)
    ranks, loads, pads, toss_ups = (c_size_t * MOST)(), (c_double * MOST)(), c_size_t(), c_size_t()
    told(library.wejdarox_pad_order(_at(held), length, ranks, loads, byref(pads), byref(toss_ups)))
    return PadOrder([Pad(number, loads[number - 1]) for number in ranks[:pads.value]], toss_ups.value)


def moves(file: Any, pad: int) -> List[float]:
    """How the load of a pad, counted from 1, moves with each reading. Refusals: 8, 1, 3, 5, 6, 7."""
    held, length = _bytes(file)
    out, pads, toss_ups = (c_double * MOST)(), c_size_t(), c_size_t()
    told(library.wejdarox_moves(_at(held), length, pad if 0 <= pad < 1 << 64 else 0, out, byref(pads), byref(toss_ups)))
    return list(out[:pads.value])


def stiffness(file: Any) -> Scaled:
    """The determinant of a panel file's matrix, which neither vanishes nor overflows. Refusals: 8, 1, 3, 5, 7."""
    held, length = _bytes(file)
    significand, exponent, toss_ups = c_double(), c_int32(), c_size_t()
    told(library.wejdarox_stiffness(_at(held), length, byref(significand), byref(exponent), byref(toss_ups)))
    return Scaled(significand.value, exponent.value)


def _printed(call: Any, file: Any, *words: int) -> str:
    held, length = _bytes(file)
    out = (c_uint8 * TEXT)()
    return bytes(out[:call(_at(held), length, *words, out)]).decode("ascii")


def text(file: Any) -> str:
    """What ./panel-order prints for a file: its pads with the bits of their loads, or `refused K`."""
    return _printed(library.wejdarox_text, file)


def why(file: Any) -> str:
    """What ./panel-order --why prints: `no reason`, or `refused K` and for 6 and 7 the place."""
    return _printed(library.wejdarox_why_text, file)


def season(files: Iterable[Any]) -> Season:
    """The figures of up to 4,000 panel files, in whatever order. Refusal: 10, where there are more."""
    counts = (c_size_t * 17)()
    for file in files:
        held, length = _bytes(file)
        told(library.wejdarox_with_file(_at(held), length, counts))
    return Season(counts[0], tuple(counts[1:10]), counts[10], tuple(counts[11:16]), counts[16])
