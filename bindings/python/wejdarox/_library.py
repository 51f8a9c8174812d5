"""The shared library that ./library makes, and the types of its calls (include/wejdarox.h)."""
import ctypes
import ctypes.util
import os
from ctypes import POINTER, c_bool, c_double, c_int32, c_size_t, c_uint8

MOST = 64
SWAPS = 128
TEXT = 1288

_NUMBERS = [ctypes.c_void_p, c_size_t]  # a slice: where it lies, and its length
_HELD = _NUMBERS * 2 + [c_size_t] * 4  # factors, swaps, rows, columns, pairs, dead columns
_COUNT = POINTER(c_size_t)
_TRIANGLE = _NUMBERS + [c_size_t] + _NUMBERS + [c_size_t] + _NUMBERS
_PERMUTE = _NUMBERS + [c_size_t] * 2 + _NUMBERS + [c_size_t]
_FACTOR = _NUMBERS + [c_size_t] * 2 + _NUMBERS * 2 + [_COUNT] * 3

# The arguments of each call, in the header's order. Each answers a number of the type size_t.
ARGUMENTS = {
    "version": [],
    "factor": _FACTOR,
    "build_up": _FACTOR,
    "add_column": _NUMBERS * 3 + [c_size_t] * 2 + [_COUNT] * 3,
    "remove_column": _NUMBERS * 2 + [c_size_t] * 2 + [_COUNT] * 2,
    "solve": _HELD + _NUMBERS + [c_size_t] + _NUMBERS,
    "tr_solve": _HELD + _NUMBERS + [c_size_t] + _NUMBERS,
    "why_factor": _FACTOR,
    "why_solve": _HELD + _NUMBERS + [c_size_t] + _NUMBERS + [_COUNT] * 3,
    "l": _HELD + _NUMBERS,
    "u": _HELD + _NUMBERS,
    "inverse": _HELD + _NUMBERS,
    "determinant": _HELD + [POINTER(c_double)],
    "scaled_determinant": _HELD + [POINTER(c_double), POINTER(c_int32)],
    "is_invertible": _HELD + [POINTER(c_bool)],
    "solve_lower_triangular": _TRIANGLE,
    "solve_upper_triangular": _TRIANGLE,
    "tr_solve_lower_triangular": _TRIANGLE,
    "tr_solve_upper_triangular": _TRIANGLE,
    "solve_lower_triangular_with_diag": _TRIANGLE + [c_double],
    "solve_lower_triangular_with_diag_corrected": _TRIANGLE + [c_double],
    "append_permutation": _NUMBERS + [_COUNT] + [c_size_t] * 3,
    "permute_rows": _PERMUTE,
    "inv_permute_rows": _PERMUTE,
    "permute_columns": _PERMUTE,
    "inv_permute_columns": _PERMUTE,
    "rank": _NUMBERS + [c_size_t] + _NUMBERS + [_COUNT],
    "rank_all": _NUMBERS + [c_size_t] + _NUMBERS + [_COUNT],
    "pad_order": _NUMBERS + [c_size_t * MOST, c_double * MOST] + [_COUNT] * 2,
    "stiffness": _NUMBERS + [POINTER(c_double), POINTER(c_int32), _COUNT],
    "moves": _NUMBERS + [c_size_t, c_double * MOST] + [_COUNT] * 2,
    "read_panel": _NUMBERS * 3 + [_COUNT],
    "write_panel": [c_size_t] + _NUMBERS * 3 + [_COUNT],
    "text": _NUMBERS + [c_uint8 * TEXT],
    "moves_text": _NUMBERS + [c_size_t, c_uint8 * TEXT],
    "stiffness_text": _NUMBERS + [c_uint8 * TEXT],
    "why_text": _NUMBERS + [c_uint8 * TEXT],
    "with_file": _NUMBERS + [c_size_t * 17],
    "four_pads": [c_double * 16, c_double * 4, c_double * 16, _COUNT, c_size_t * 8, c_double * 4],
    "four_pads_of": _NUMBERS + [c_double * 16, _COUNT, c_size_t * 8, c_double * 4],
}


def _path() -> str:
    """Where the library lies: in the directory $WEJDAROX_LIBRARY; in this checkout; or where the machine's loader looks."""
    told = os.environ.get("WEJDAROX_LIBRARY")
    if told:
        return os.path.join(told, "libwejdarox.so")
    top = os.path.join(os.path.dirname(os.path.abspath(__file__)), "..", "..", "..")
    made = os.path.normpath(os.path.join(top, "target", "library", "lib", "libwejdarox.so"))
    if os.path.exists(made):
        return made
    installed = ctypes.util.find_library("wejdarox")
    if installed:
        return installed
    raise ImportError("libwejdarox.so is missing: ./library makes it, and WEJDAROX_LIBRARY may name the directory of another")


def _loaded() -> ctypes.CDLL:
    path = _path()
    try:
        library = ctypes.CDLL(path)
        for name, arguments in ARGUMENTS.items():
            call = getattr(library, "wejdarox_" + name)
            call.argtypes, call.restype = arguments, c_size_t
        library.wejdarox_permutation_sign.argtypes = [c_size_t]
        library.wejdarox_permutation_sign.restype = c_double
    except (OSError, AttributeError) as why:
        raise ImportError("%s cannot be used: %s" % (path, why)) from None
    return library


library = _loaded()
