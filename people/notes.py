"""Notes on a crossing that has an order, in sentences: toss-ups, loads far apart, a crossing that may be nearly singular, growth.

Each number in them is one that a proved program printed. Where the program that prints it is missing there is no such note."""
from __future__ import annotations

from decimal import Decimal
from typing import List, Optional

import doubles
from programs import Load, Pivots, Programs, Refused, Stiffness

FAR = 6  # loads so many orders of magnitude apart are noted
SMALL = 6  # a least pivot so many orders below the matrix's greatest number is noted
GROWN = 3  # a greatest pivot so many orders above it is noted


def notes(programs: Programs, file: bytes, loads: List[Load]) -> List[str]:
    """The notes on an accepted file."""
    pivots = programs.pivots(file) if programs.has("panel_pivots") else None
    if isinstance(pivots, Refused):
        pivots = None
    soft = [far_apart(loads), small_pivot(pivots)]
    if any(soft):
        soft.append("The crossing may be nearly singular, or its pads may be given in different units: then a small error in a reading, or in "
                    "the effect of a pad, makes a large one in the loads.")
        stiffness = programs.stiffness(file)
        soft.append("" if isinstance(stiffness, Refused) else determinant(stiffness))
    told = [toss_ups(pivots, len(loads)), " ".join(filter(None, soft)), grown(pivots)]
    return [note for note in told if note]


def toss_ups(pivots: Optional[Pivots], pads: int) -> str:
    """At how many columns the pivot was a toss-up."""
    if not pivots or not pivots.toss_ups:
        return ""
    return (f"The pivot was a toss-up in {pivots.toss_ups} of {pads} columns: two readings answered equally there, and the order of the survey decided between "
            "them. Surveyed in another order, the last digits of the loads may be others.")


def far_apart(loads: List[Load]) -> str:
    """Where the loads differ by many orders of magnitude."""
    carrying = [each for each in loads if each.load]
    if not carrying:
        return ""
    most, least = carrying[0], carrying[-1]
    orders = doubles.orders_between(abs(most.load), abs(least.load))
    if orders < FAR:
        return ""
    return (f"The loads differ by {orders} orders of magnitude: pad {most.pad} carries {doubles.shortest(most.load)}, pad {least.pad} "
            f"{doubles.shortest(least.load)}.")


def small_pivot(pivots: Optional[Pivots]) -> str:
    """Where the least pivot is small beside the matrix."""
    if not pivots or not pivots.least or doubles.orders_between(pivots.matrix, pivots.least) < SMALL:
        return ""
    return f"The least pivot is {doubles.shortest(pivots.least)}, and the greatest number of the matrix {doubles.shortest(pivots.matrix)}."


def grown(pivots: Optional[Pivots]) -> str:
    """Where numbers grew in the elimination."""
    if not pivots or not pivots.matrix or doubles.orders_between(pivots.greatest, pivots.matrix) < GROWN:
        return ""
    return (f"The numbers grew in the elimination: the greatest of the matrix is {doubles.shortest(pivots.matrix)}, the greatest pivot "
            f"{doubles.shortest(pivots.greatest)}. The last digits of the loads are uncertain.")


def determinant(stiffness: Stiffness) -> str:
    """The scaled determinant, in words."""
    value = Decimal(stiffness.significand) * Decimal(2) ** stiffness.exponent
    return (f"The determinant of the matrix is {doubles.shortest(stiffness.significand)} times two to the power of {stiffness.exponent}, "
            f"about {value:.1e}.")
