"""Factors of a matrix, and what follows from them."""
import ctypes
from array import array
from ctypes import byref, c_bool, c_double, c_int32, c_size_t
from typing import Any, List, NamedTuple, Optional, Tuple, Union

from ._lent import lend, shape_of
from ._library import MOST, SWAPS, library
from ._matrix import Matrix
from .refusals import told

Solution = Union[List[float], Matrix]


class Scaled(NamedTuple):
    """A number as a significand, of magnitude from 1 up to but not 2 or +0.0, times a power of two."""

    significand: float
    exponent: int


class Why(NamedTuple):
    """A reason: the refusal's number, 0 where there is none, and for 6 and 7 the place, counted from 0."""

    number: int
    place: Optional[Tuple[int, ...]]


def _room(count: int) -> array:
    """So many zeros, and one number more where there are none: the library wants an address."""
    return array("d", bytes(8 * max(count, 1)))


def _size(number: int) -> int:
    """A size for the library, which counts in 64 bits; what lies outside is refused there as too large."""
    return number if 0 <= number < 1 << 64 else (1 << 64) - 1


class Lu:
    """The factors of a matrix of 1 to 64 rows and up to 64 columns, with the exchanged rows. `factor` makes one."""

    __slots__ = ("_factors", "_swaps", "_rows", "_columns", "_pairs", "_dead", "_toss_ups")

    def __init__(self) -> None:
        raise TypeError("wejdarox.factor makes an Lu")

    @classmethod
    def _of(cls, factors: array, swaps: Any, rows: int, columns: int, counts: Tuple[int, int, int]) -> "Lu":
        self = object.__new__(cls)
        self._factors, self._swaps, self._rows, self._columns = factors, swaps, rows, columns
        self._pairs, self._dead, self._toss_ups = counts
        return self

    @property
    def shape(self) -> Tuple[int, int]:
        """Rows and columns."""
        return self._rows, self._columns

    @property
    def factors(self) -> Matrix:
        """L and U packed: U on and above the diagonal, L below it without its ones. A copy."""
        return Matrix(self._factors[:self._rows * self._columns], self._rows, self._columns)

    @property
    def swaps(self) -> List[Tuple[int, int]]:
        """The exchanged rows, the first pair first, counted from 0."""
        return [(self._swaps[2 * i], self._swaps[2 * i + 1]) for i in range(self._pairs)]

    @property
    def dead_columns(self) -> int:
        """How many columns have a zero on the diagonal of the factors."""
        return self._dead

    @property
    def toss_ups(self) -> int:
        """In how many columns another row had the pivot's magnitude, so that the first was taken."""
        return self._toss_ups

    def _held(self) -> tuple:
        count = self._rows * self._columns
        return (self._factors.buffer_info()[0], count, ctypes.addressof(self._swaps), SWAPS, self._rows, self._columns, self._pairs, self._dead)

    def add_column(self, column: Any) -> None:
        """Adds one column behind the others: the same factors, to the last bit, as factoring the widened matrix. Refusals: 1, 3, 5, 7."""
        rows, columns = self.shape
        widened = array("d", self._factors[:rows * columns])
        widened.frombytes(bytes(8 * rows))
        swaps, counts = (c_size_t * SWAPS)(*self._swaps), [c_size_t(self._pairs), c_size_t(self._dead), c_size_t()]
        with lend(column) as lent:
            told(library.wejdarox_add_column(widened.buffer_info()[0], len(widened), lent.at, lent.count, ctypes.addressof(swaps), SWAPS, rows, columns,
                                             *map(byref, counts)))
        self._factors, self._swaps, self._columns = widened, swaps, columns + 1
        self._pairs, self._dead = counts[0].value, counts[1].value
        self._toss_ups += counts[2].value

    def remove_column(self) -> None:
        """Takes the last column off: the same factors, to the last bit, as factoring the others. Refusal: 1, where there is none.

        The toss-ups are then those of all columns that were ever added: how many the last one had is not kept."""
        rows, columns = self.shape
        pairs, dead = c_size_t(self._pairs), c_size_t(self._dead)
        told(library.wejdarox_remove_column(self._factors.buffer_info()[0], rows * columns, ctypes.addressof(self._swaps), SWAPS, rows, columns,
                                            byref(pairs), byref(dead)))
        self._factors = self._factors[:rows * (columns - 1)] or _room(0)
        self._columns, self._pairs, self._dead = columns - 1, pairs.value, dead.value

    def _solved(self, call: Any, b: Any) -> Solution:
        with lend(b) as lent:
            k = 1 if lent.columns is None else lent.columns
            x = _room(min(lent.count, MOST * MOST))
            told(call(*self._held(), lent.at, lent.count, k, x.buffer_info()[0], min(lent.count, MOST * MOST)))
            return x.tolist() if lent.columns is None else Matrix(x, self._rows, k)

    def solve(self, b: Any) -> Solution:
        """Solves for one right-hand column (a list) or several (a matrix). Refusals: 1, 2, 3, 5, 6, 7."""
        return self._solved(library.wejdarox_solve, b)

    def tr_solve(self, b: Any) -> Solution:
        """The same by the transposed matrix."""
        return self._solved(library.wejdarox_tr_solve, b)

    def why_solve(self, b: Any) -> Why:
        """Why `solve` refuses these columns: for 6 the place is (column,), for 7 (pass, right-hand column, row), the pass 1 or 2."""
        places = [c_size_t() for _ in range(3)]
        with lend(b) as lent:
            k = 1 if lent.columns is None else lent.columns
            x = _room(min(lent.count, MOST * MOST))
            number = library.wejdarox_why_solve(*self._held(), lent.at, lent.count, k, x.buffer_info()[0], min(lent.count, MOST * MOST), *map(byref, places))
        spot = tuple(place.value for place in places)
        return Why(number, {6: spot[1:2], 7: spot}.get(number))

    def _made(self, call: Any, rows: int, columns: int) -> Matrix:
        x = _room(rows * columns)
        told(call(*self._held(), x.buffer_info()[0], rows * columns))
        return Matrix(x, rows, columns)

    def l(self) -> Matrix:
        """L, with its ones."""
        return self._made(library.wejdarox_l, self._rows, min(self.shape))

    def u(self) -> Matrix:
        """U."""
        return self._made(library.wejdarox_u, min(self.shape), self._columns)

    def inverse(self) -> Matrix:
        """The inverse of a square matrix. Refusals: 2, 6, 7."""
        return self._made(library.wejdarox_inverse, self._rows, self._rows)

    def determinant(self) -> float:
        """The determinant of a square matrix; it may underflow. Refusals: 2, 7."""
        value = c_double()
        told(library.wejdarox_determinant(*self._held(), byref(value)))
        return value.value

    def scaled_determinant(self) -> Scaled:
        """The determinant, which neither vanishes nor overflows. Refusal: 2."""
        significand, exponent = c_double(), c_int32()
        told(library.wejdarox_scaled_determinant(*self._held(), byref(significand), byref(exponent)))
        return Scaled(significand.value, exponent.value)

    def is_invertible(self) -> bool:
        """Whether no column is dead. Refusal: 2."""
        holds = c_bool()
        told(library.wejdarox_is_invertible(*self._held(), byref(holds)))
        return holds.value


def _factored(call: Any, a: Any, shape: Optional[Tuple[int, int]], counts: list) -> Tuple[int, array, Any, int, int]:
    with lend(a) as lent:
        rows, columns = shape_of(lent, shape, "the matrix")
        count = min(lent.count, MOST * MOST)
        factors, swaps = _room(count), (c_size_t * SWAPS)()
        answer = call(lent.at, lent.count, _size(rows), _size(columns), factors.buffer_info()[0], count, ctypes.addressof(swaps), SWAPS, *map(byref, counts))
    return answer, factors, swaps, rows, columns


def factor(a: Any, shape: Optional[Tuple[int, int]] = None) -> Lu:
    """Factors a matrix with row pivoting: a list of rows, or an array of two dimensions; or a plain list by column, with its shape.

    Refusals: 1, 3, 5, 7."""
    counts = [c_size_t() for _ in range(3)]
    answer, factors, swaps, rows, columns = _factored(library.wejdarox_factor, a, shape, counts)
    told(answer)
    return Lu._of(factors, swaps, rows, columns, tuple(count.value for count in counts))


def why_factor(a: Any, shape: Optional[Tuple[int, int]] = None) -> Why:
    """Why `factor` refuses this matrix; for 7 the place is (step, column, row)."""
    places = [c_size_t() for _ in range(3)]
    number = _factored(library.wejdarox_why_factor, a, shape, places)[0]
    return Why(number, tuple(place.value for place in places) if number == 7 else None)


def add_column(lu: Lu, column: Any) -> Lu:
    """The factors with one column more; `lu` itself is left as it was."""
    widened = Lu._of(lu._factors[:], lu._swaps, lu._rows, lu._columns, (lu._pairs, lu._dead, lu._toss_ups))
    widened.add_column(column)
    return widened


def remove_column(lu: Lu) -> Lu:
    """The factors with the last column taken off; `lu` itself is left as it was."""
    narrowed = Lu._of(lu._factors[:], (c_size_t * SWAPS)(*lu._swaps), lu._rows, lu._columns, (lu._pairs, lu._dead, lu._toss_ups))
    narrowed.remove_column()
    return narrowed


def solve(lu: Lu, b: Any) -> Solution:
    """`lu.solve(b)`, in the shape of SciPy's lu_solve."""
    return lu.solve(b)


def _listed(call: Any, loads: Any) -> List[int]:
    with lend(loads) as lent:
        size = min(lent.count, MOST)
        ranks, count = (c_size_t * max(size, 1))(), c_size_t()
        told(call(lent.at, lent.count, lent.count, ctypes.addressof(ranks), size, byref(count)))
    return list(ranks[:count.value])


def rank(loads: Any) -> List[int]:
    """The numbers of the pads that carry a load, counted from 1, in the order to lift them. Refusals: 1, 5."""
    return _listed(library.wejdarox_rank, loads)


def rank_all(loads: Any) -> List[int]:
    """The numbers of all pads, in the same order. Refusals: 1, 5."""
    return _listed(library.wejdarox_rank_all, loads)
