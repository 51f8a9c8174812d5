"""A matrix that a call answers."""
from array import array
from typing import List, Tuple


class Matrix:
    """Numbers by column: `m[i, j]`, `m.tolist()` for a list of rows, `numpy.asarray(m)` for the same memory as an array."""

    __slots__ = ("data", "rows", "columns")

    def __init__(self, data: array, rows: int, columns: int) -> None:
        self.data, self.rows, self.columns = data, rows, columns

    @property
    def shape(self) -> Tuple[int, int]:
        return self.rows, self.columns

    @property
    def __array_interface__(self) -> dict:
        return {"version": 3, "shape": self.shape, "typestr": "<f8", "data": (self.data.buffer_info()[0], False), "strides": (8, 8 * self.rows)}

    def __getitem__(self, place: Tuple[int, int]) -> float:
        i, j = place
        if not (0 <= i < self.rows and 0 <= j < self.columns):
            raise IndexError("%r lies outside %r" % (place, self.shape))
        return self.data[j * self.rows + i]

    def column(self, j: int) -> List[float]:
        return [self[i, j] for i in range(self.rows)]

    def tolist(self) -> List[List[float]]:
        return [[self[i, j] for j in range(self.columns)] for i in range(self.rows)]

    def __eq__(self, other: object) -> bool:
        return isinstance(other, Matrix) and self.shape == other.shape and self.data == other.data

    def __repr__(self) -> str:
        return "Matrix(%r)" % self.tolist()
