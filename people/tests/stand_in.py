"""Stand-ins for the proved programs, by the second reading of the specification in oracle/casework/model.py: the same bits, nothing proved.

Run, it is the program that its first word names."""
from __future__ import annotations

import os
import struct
import sys
from typing import Callable, Dict, List, Sequence

TOP = os.path.dirname(os.path.dirname(os.path.dirname(os.path.realpath(__file__))))
sys.path.insert(0, os.path.join(TOP, "oracle"))
from casework import model  # noqa: E402

MOST = 33287


def items(file: bytes) -> List[int]:
    """The bytes as the model takes them, in words of eight."""
    return list(struct.unpack(f"<{-(-len(file) // 8)}Q", file + bytes(-len(file) % 8)))


def panel_order(file: bytes) -> str:
    """The pads in order."""
    return model.panel_file(0, 0, len(file), items(file))[0]


def panel_why(file: bytes) -> str:
    """Why there is no order."""
    return model.why_panel_file(0, 0, len(file), items(file))[0]


def panel_stiffness(file: bytes) -> str:
    """The scaled determinant."""
    return " ".join(model.text(part) for part in model.stiffness(0, 0, len(file), items(file))) + "\n"


def panel_moves(file: bytes, pad: str) -> str:
    """How a pad's load moves with each reading."""
    moves, = model.moves(int(pad), 0, len(file), items(file))
    return "".join(f"{k} {model.text([move])}\n" for k, move in enumerate(moves, 1))


def panel_pivots(file: bytes) -> str:
    """The toss-ups, the greatest magnitude of the matrix, the greatest and the least of the pivots."""
    pads, values = model.read_panel(len(file), items(file))
    rows = model.rows_of(pads, pads, values)
    toss_ups = model.eliminate(pads, pads, rows)[1]
    model.overflow(model.flat_of(pads, pads, rows))
    pivots = [abs(rows[k][k]) for k in range(pads)]
    told = {"matrix": max(map(abs, values[:pads * pads])), "greatest": max(pivots), "least": min(pivots)}
    return f"toss-ups {toss_ups}\n" + "".join(f"{word} {model.text([number])}\n" for word, number in told.items())


def panel_season(names: bytes) -> str:
    """The sixteen counts of the named files."""
    accepted, refused, pads, bands = 0, [0] * 10, 0, [0] * 5
    for name in names.splitlines()[:4000]:
        try:
            listed, exponent = model.share(opened(name))
        except model.Refused as why:
            refused[why.args[0]] += 1
            continue
        accepted, pads = accepted + 1, pads + listed
        bands[sum(exponent > edge for edge in (0, 511, 1022, 1534))] += 1
    return "".join(f"{count}\n" for count in [accepted, *refused[1:], pads, *bands])


def opened(name: bytes) -> bytes:
    """A file of a season, empty where it cannot be opened."""
    try:
        with open(name, "rb") as held:
            return held.read(MOST)
    except OSError:
        return b""


def panel_write(text: bytes) -> bytes:
    """A panel file from its bits."""
    pads, *bits = text.decode("ascii").split("\n")[:-1]
    n = int(pads)
    model.size(n, 1)
    model.refuse(3, len(bits) != n * n + n)
    numbers = [struct.unpack(">d", bytes.fromhex(each))[0] for each in bits]
    model.numbers(numbers)
    return b"LXP\1\0" + bytes([n]) + struct.pack(f"<{len(numbers)}d", *numbers)


PROGRAMS: Dict[str, Callable[..., object]] = {
    each.__name__: each for each in (panel_order, panel_why, panel_stiffness, panel_moves, panel_pivots, panel_season, panel_write)}


def answer(name: str, given: bytes, words: Sequence[str]) -> bytes:
    """What a program prints."""
    try:
        made = PROGRAMS[name](given if name in ("panel_season", "panel_write") else given[:MOST], *words)
    except model.Refused as why:
        made = why.args[1] if len(why.args) > 1 else f"refused {why.args[0]}\n"
    return made if isinstance(made, bytes) else str(made).encode("ascii")


if __name__ == "__main__":
    sys.stdout.buffer.write(answer(sys.argv[1], sys.stdin.buffer.read(), sys.argv[2:]))
