"""Refusals in a sentence: what the number means and, where `panel_why` tells a place, where it comes from."""
from __future__ import annotations

import re

from programs import Refused

MEANINGS = {
    1: "The number of pads is not from 1 to 64.",
    3: "The file has not the length that its number of pads asks for: it is cut short, or something stands behind its end.",
    5: "A number of the matrix or of the readings is not finite.",
    6: "The matrix is singular: there is a zero on the diagonal of its factors.",
    7: "A result is too large for a finite number.",
    8: "This is no panel file of version 1: it has under 6 bytes, another mark or another version.",
}


def sentence(refused: Refused) -> str:
    """The reason of a refusal in one sentence."""
    found = re.fullmatch(r"column (\d+)", refused.place)
    if found:
        return singular(int(found[1]))
    found = re.fullmatch(r"factoring: step (\d+), column (\d+), row (\d+)", refused.place)
    if found:
        return (f"A result is too large for a finite number: in factoring the matrix, step {found[1]}, in the column of pad {found[2]}, "
                f"row {found[3]} as the rows stand by then.")
    found = re.fullmatch(r"solving: (lower|upper) pass, column 1, row (\d+)", refused.place)
    if found:
        where = f"the load of pad {found[2]}" if found[1] == "upper" else f"row {found[2]} of the lower pass, as the rows stand by then"
        return f"A result is too large for a finite number: in solving for the loads, {where}."
    return MEANINGS.get(refused.number, "It is refused.")


def singular(pad: int) -> str:
    """Why a zero stands on the diagonal in the column of a pad."""
    if pad == 1:
        return "The matrix is singular: pad 1 moves no reading (column 1 has a zero on the diagonal of the factors)."
    before = "pad 1" if pad == 2 else f"pads 1 to {pad - 1}"
    return (f"The matrix is singular: what pad {pad} does to the readings follows from what {before} do{'es' if pad == 2 else ''}, as far as "
            f"rounding shows (column {pad} has a zero on the diagonal of the factors).")
