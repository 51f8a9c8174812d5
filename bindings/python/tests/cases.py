"""The oracle's committed cases (crates/replay): each is an op, three sizes and its slices; the answer is a line. oracle/README.md has the ops."""
import os
import struct
from array import array
from typing import Dict, Iterator, List, NamedTuple, Tuple

FOLDER = os.path.join(os.path.dirname(os.path.abspath(__file__)), "..", "..", "..", "crates", "replay")

# The slices of each op: doubles by a, b, d, m, q, x; whole numbers by p, r, s, t; bytes by f, j.
LAYOUTS: Dict[int, str] = {op: layout for ops, layout in [
    ((1, 27, 35), "axs"), ((2,), "xbsr"), ((3, 25, 28), "asrbx"), ((4, 7, 8), "asrx"), ((5, 6, 30), "asr"), ((9, 10, 12, 13), "abx"), ((11, 24), "adbx"),
    ((14, 15, 16, 17), "spx"), ((18,), "spt"), ((19,), "as"), ((20, 26, 29, 31, 33), "f"), ((21,), "abf"), ((22,), "xsr"), ((23,), "a"), ((32,), "mq"),
    ((34,), "sj")] for op in ops}


class Case(NamedTuple):
    op: int
    sizes: Tuple[int, int, int]
    slices: Dict[str, array]
    answer: List[str]


def cases() -> Iterator[Case]:
    """Each case with its line cut into parts."""
    with open(os.path.join(FOLDER, "stdin"), "rb") as f:
        held = f.read()
    with open(os.path.join(FOLDER, "stdout")) as f:
        lines = iter(f.read().split("\n"))
    at = 0
    while at < len(held) and held[at] in LAYOUTS:
        op, sizes, slices = held[at], struct.unpack_from("<QQQ", held, at + 1), {}
        at += 25
        for kind in LAYOUTS[op]:
            count = struct.unpack_from("<H", held, at)[0]
            code = "d" if kind in "abdmqx" else "B" if kind in "fj" else "Q"
            slices[kind] = array(code)
            slices[kind].frombytes(held[at + 2:at + 2 + 8 * count])
            at += 2 + 8 * count
        yield Case(op, sizes, slices, next(lines).split(" | "))
