"""Numbers lent to the library: a pointer to doubles, column after column. What lies so already is lent as it is, and anything else is copied."""
import ctypes
from array import array
from typing import Any, Iterator, Optional, Tuple


class _Buffer(ctypes.Structure):
    """CPython's Py_buffer. The stable way to the address of a buffer that is read-only or in Fortran's order."""

    _fields_ = [("buf", ctypes.c_void_p), ("obj", ctypes.c_void_p), ("len", ctypes.c_ssize_t), ("itemsize", ctypes.c_ssize_t),
                ("readonly", ctypes.c_int), ("ndim", ctypes.c_int), ("format", ctypes.c_char_p), ("shape", ctypes.POINTER(ctypes.c_ssize_t)),
                ("strides", ctypes.POINTER(ctypes.c_ssize_t)), ("suboffsets", ctypes.POINTER(ctypes.c_ssize_t)), ("internal", ctypes.c_void_p)]


_FORTRAN = 0x0040 | 0x0010 | 0x0008 | 0x0004  # PyBUF_F_CONTIGUOUS with its strides, and PyBUF_FORMAT
_get = ctypes.pythonapi.PyObject_GetBuffer
_get.argtypes, _get.restype = [ctypes.py_object, ctypes.POINTER(_Buffer), ctypes.c_int], ctypes.c_int
_release = ctypes.pythonapi.PyBuffer_Release
_release.argtypes, _release.restype = [ctypes.POINTER(_Buffer)], None

DOUBLES = ("d", "<d", "=d", "@d")


class Lent:
    """Numbers for the time of a call: `at` and `count` are what the library takes, and (rows, columns) the shape, columns None for a list."""

    def __init__(self, at: int, count: int, rows: int, columns: Optional[int], copied: bool, holder: Any) -> None:
        self.at, self.count, self.rows, self.columns, self.copied = at, count, rows, columns, copied
        self._holder = holder

    def close(self) -> None:
        if isinstance(self._holder, _Buffer):
            _release(ctypes.byref(self._holder))
            self._holder = None

    def __enter__(self) -> "Lent":
        return self

    def __exit__(self, *why: object) -> None:
        self.close()


def _as_it_lies(view: memoryview, given: Any) -> Optional[Lent]:
    if view.format not in DOUBLES or view.itemsize != 8 or view.ndim not in (1, 2) or not view.f_contiguous:
        return None
    buffer = _Buffer()
    _get(given, ctypes.byref(buffer), _FORTRAN)
    columns = view.shape[1] if view.ndim == 2 else None
    # an empty buffer may have no address, and the library wants one that is not null
    return Lent(buffer.buf or ctypes.addressof(buffer), view.nbytes // 8, view.shape[0], columns, False, buffer)


def _copied(values: array, rows: int, columns: Optional[int]) -> Lent:
    held = values if values else array("d", [0.0])
    return Lent(held.buffer_info()[0], len(values), rows, columns, True, held)


def _by_column(rows: list) -> Iterator[float]:
    width = len(rows[0])
    if any(len(row) != width for row in rows):
        raise ValueError("the rows of a matrix have different lengths")
    return (row[j] for j in range(width) for row in rows)


def lend(given: Any) -> Lent:
    """A list of numbers, a list of rows, or anything with the buffer protocol, of one or two dimensions."""
    try:
        view = memoryview(given)
    except TypeError:
        view = None
    if view is not None:
        with view:
            lent = _as_it_lies(view, given)
            if lent is not None:
                return lent
            if view.ndim not in (1, 2):
                raise ValueError("numbers of %d dimensions: one or two are wanted" % view.ndim)
            shape, given = tuple(view.shape), view.tolist()
            if view.ndim == 2 and 0 in shape:
                return _copied(array("d"), shape[0], shape[1])
    values = list(given)
    if values and not isinstance(values[0], (int, float)) and hasattr(values[0], "__len__"):
        rows = [list(row) for row in values]
        return _copied(array("d", _by_column(rows)), len(rows), len(rows[0]))
    return _copied(array("d", values), len(values), None)


def shape_of(lent: Lent, shape: Optional[Tuple[int, int]], what: str) -> Tuple[int, int]:
    """The sizes of a matrix: its own, or the ones that are given beside a plain list."""
    if shape is not None:
        return shape
    if lent.columns is None:
        raise ValueError("%s is a plain list: its shape, (rows, columns), must be given" % what)
    return lent.rows, lent.columns
