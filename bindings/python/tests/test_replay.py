"""Every committed case of the oracle through the call that it names, its answer and every slice as it is left compared to the last bit."""
import struct
import unittest
from array import array
from ctypes import byref, c_bool, c_double, c_int32, c_size_t, c_uint8
from typing import Any, Callable, Dict, List, Sequence

from wejdarox._library import library

from .cases import Case, cases

Parts = List[str]


SOMEWHERE = array("d", [0.0])  # an address for a slice of no numbers


def lent(numbers: array) -> tuple:
    """The two arguments of a slice, which the caller keeps."""
    return (numbers.buffer_info()[0] or SOMEWHERE.buffer_info()[0], len(numbers))


def hexed(numbers: Sequence[float]) -> str:
    return " ".join("nan" if x != x else "%016x" % struct.unpack("<Q", struct.pack("<d", x)) for x in numbers)


def whole(numbers: Sequence[int]) -> str:
    return " ".join(map(str, numbers))


def counters(count: int, *first: int) -> list:
    return [c_size_t(x) for x in list(first) + [0] * (count - len(first))]


def factoring(call: Callable) -> Callable:
    def run(c: Case) -> Parts:
        counts = counters(3)
        a, x, s = (c.slices[kind] for kind in "axs")
        number = call(*lent(a), *c.sizes[:2], *lent(x), *lent(s), *map(byref, counts))
        pairs, dead, tossed = [str(count.value) for count in counts]
        return [str(number), pairs, hexed(x), whole(s), tossed, dead]
    return run


def adding(c: Case) -> Parts:
    x, b, s, r = (c.slices[kind] for kind in "xbsr")
    counts = counters(3, *r)
    number = library.wejdarox_add_column(*lent(x), *lent(b), *lent(s), *c.sizes[:2], *map(byref, counts))
    return [str(number), str(counts[0].value), hexed(x), whole(s), str(counts[2].value), str(counts[1].value)]


def removing(c: Case) -> Parts:
    x, s, r = (c.slices[kind] for kind in "xsr")
    counts = counters(2, *r)
    number = library.wejdarox_remove_column(*lent(x), *lent(s), *c.sizes[:2], *map(byref, counts))
    return [str(number), str(counts[0].value), hexed(x), whole(s), str(counts[1].value)]


def held(c: Case) -> tuple:
    return (*lent(c.slices["a"]), *lent(c.slices["s"]), *c.sizes[:2], *c.slices["r"])


def solving(call: Callable) -> Callable:
    def run(c: Case) -> Parts:
        number = call(*held(c), *lent(c.slices["b"]), c.sizes[2], *lent(c.slices["x"]))
        return [str(number), hexed(c.slices["x"])]
    return run


def reading(call: Callable) -> Callable:
    def run(c: Case) -> Parts:
        return [str(call(*held(c), *lent(c.slices["x"]))), hexed(c.slices["x"])]
    return run


def determining(c: Case) -> Parts:
    value = c_double(7.5)
    number = library.wejdarox_determinant(*held(c), byref(value))
    return [str(number), "-" if number else hexed([value.value])]


def inverting(c: Case) -> Parts:
    holds = c_bool()
    number = library.wejdarox_is_invertible(*held(c), byref(holds))
    return [str(number), "-" if number else str(int(holds.value))]


def parts(number: int, significand: c_double, exponent: c_int32) -> Parts:
    if number:
        return [str(number), "-", "-"]
    return [str(number), hexed([significand.value]), str(exponent.value)]


def scaling(c: Case) -> Parts:
    significand, exponent = c_double(), c_int32()
    return parts(library.wejdarox_scaled_determinant(*held(c), byref(significand), byref(exponent)), significand, exponent)


def triangle(call: Callable) -> Callable:
    def run(c: Case) -> Parts:
        last = tuple(c.slices.get("d", ()))
        number = call(*lent(c.slices["a"]), c.sizes[1], *lent(c.slices["b"]), c.sizes[2], *lent(c.slices["x"]), *last)
        return [str(number), hexed(c.slices["x"])]
    return run


def permuting(call: Callable) -> Callable:
    def run(c: Case) -> Parts:
        number = call(*lent(c.slices["x"]), *c.sizes[:2], *lent(c.slices["s"]), c.slices["p"][0])
        return [str(number), hexed(c.slices["x"])]
    return run


def appending(c: Case) -> Parts:
    pairs = c_size_t(c.slices["p"][0])
    number = library.wejdarox_append_permutation(*lent(c.slices["s"]), byref(pairs), c.sizes[0], *c.slices["t"])
    return [str(number), str(pairs.value), whole(c.slices["s"])]


def ranking(c: Case) -> Parts:
    count = c_size_t()
    call = library.wejdarox_rank_all if c.sizes[0] else library.wejdarox_rank
    number = call(*lent(c.slices["a"]), c.sizes[1], *lent(c.slices["s"]), byref(count))
    return [str(number), "-" if number else str(count.value), whole(c.slices["s"])]


def file_of(c: Case) -> array:
    """The bytes of a file, without what fills up the last item; the case keeps them."""
    del c.slices["f"][c.sizes[2]:]
    return c.slices["f"]


def text(call: Callable) -> Callable:
    def run(c: Case) -> Parts:
        out = (c_uint8 * 1288)()
        told = bytes(out[:call(*lent(file_of(c)), out)]).decode()
        return [told.split()[1] if told.startswith("refused") else "0", told.replace("\n", " / ")]
    return run


def moving(c: Case) -> Parts:
    out, pads, tossed = (c_double * 64)(), c_size_t(), c_size_t()
    number = library.wejdarox_moves(*lent(file_of(c)), c.sizes[0], out, byref(pads), byref(tossed))
    return [str(number), "-" if number else hexed(out[:pads.value])]


def stiffness(c: Case) -> Parts:
    significand, exponent, tossed = c_double(), c_int32(), c_size_t()
    return parts(library.wejdarox_stiffness(*lent(file_of(c)), byref(significand), byref(exponent), byref(tossed)), significand, exponent)


def writing(c: Case) -> Parts:
    out, count = file_of(c), c_size_t()
    number = library.wejdarox_write_panel(c.sizes[1], *lent(c.slices["a"]), *lent(c.slices["b"]), *lent(out), byref(count))
    return [str(number), "-" if number else str(count.value), out.tobytes().hex()]


def profile(number: int, factors: Any, pairs: c_size_t, swaps: Any, loads: Any) -> Parts:
    return [str(number), hexed(factors), str(pairs.value), whole(swaps[:2 * pairs.value]), hexed(loads)]


def four(c: Case) -> Parts:
    out = (c_double * 16)(), c_size_t(), (c_size_t * 8)(), (c_double * 4)()
    number = library.wejdarox_four_pads((c_double * 16)(*c.slices["m"]), (c_double * 4)(*c.slices["q"]), out[0], byref(out[1]), out[2], out[3])
    return profile(number, *out)


def four_of(c: Case) -> Parts:
    out = (c_double * 16)(), c_size_t(), (c_size_t * 8)(), (c_double * 4)()
    return profile(library.wejdarox_four_pads_of(*lent(file_of(c)), out[0], byref(out[1]), out[2], out[3]), *out)


def why_factor(c: Case) -> Parts:
    places = counters(3)
    number = library.wejdarox_why_factor(*lent(c.slices["a"]), *c.sizes[:2], *lent(c.slices["x"]), *lent(c.slices["s"]), *map(byref, places))
    return [str(number), whole(place.value for place in places) if number == 7 else "-"]


def why_solve(c: Case) -> Parts:
    places = counters(3)
    number = library.wejdarox_why_solve(*held(c), *lent(c.slices["b"]), c.sizes[2], *lent(c.slices["x"]), *map(byref, places))
    spot = [place.value for place in places]
    return [str(number), whole({6: spot[1:2], 7: spot}[number]) if number in (6, 7) else "-"]


def seasons(c: Case) -> Parts:
    counts, number, at = (c_size_t * 17)(), 0, 0
    for length in c.slices["s"]:
        file = c.slices["j"][at:at + length]
        number = library.wejdarox_with_file(*lent(file), counts) or number
        at += length
    return [str(number), whole(counts[:16])]


RUNS: Dict[int, Callable[[Case], Parts]] = {
    1: factoring(library.wejdarox_factor), 35: factoring(library.wejdarox_build_up), 2: adding, 22: removing,
    3: solving(library.wejdarox_solve), 25: solving(library.wejdarox_tr_solve), 27: why_factor, 28: why_solve,
    4: reading(library.wejdarox_inverse), 7: reading(library.wejdarox_l), 8: reading(library.wejdarox_u), 5: determining, 6: inverting, 30: scaling,
    9: triangle(library.wejdarox_solve_lower_triangular), 10: triangle(library.wejdarox_solve_upper_triangular),
    12: triangle(library.wejdarox_tr_solve_lower_triangular), 13: triangle(library.wejdarox_tr_solve_upper_triangular),
    11: triangle(library.wejdarox_solve_lower_triangular_with_diag), 24: triangle(library.wejdarox_solve_lower_triangular_with_diag_corrected),
    14: permuting(library.wejdarox_permute_rows), 15: permuting(library.wejdarox_inv_permute_rows), 16: permuting(library.wejdarox_permute_columns),
    17: permuting(library.wejdarox_inv_permute_columns), 18: appending, 19: ranking, 20: text(library.wejdarox_text), 29: text(library.wejdarox_why_text),
    26: moving, 31: stiffness, 21: writing, 32: four, 33: four_of, 34: seasons,
}
NOT_EXPORTED = {23}  # the pivot search has no call in the header


class Replay(unittest.TestCase):
    def test_every_case(self) -> None:
        ran: Dict[int, int] = {}
        for place, case in enumerate(cases()):
            if case.op in NOT_EXPORTED:
                continue
            self.assertEqual(RUNS[case.op](case), case.answer, "case %d, op %d" % (place, case.op))
            ran[case.op] = ran.get(case.op, 0) + 1
        self.assertEqual(sorted(ran), sorted(RUNS))
        self.assertGreater(sum(ran.values()), 5000)


if __name__ == "__main__":
    unittest.main()
