"""Pictures as inline SVG, in black, white and grey: what is positive is filled, what is negative is hollow."""
from __future__ import annotations

from math import sqrt
from typing import List, Optional

BOX = '<svg class="box" viewBox="0 0 12 12" aria-hidden="true"><rect x="1" y="1" width="10" height="10" fill="#fff" stroke="#000"/></svg>'
CELL = 10.0  # of the picture of moves; a circle fills it
MARGIN = 20.0
WIDEST = 180.0  # in millimetres, on A4
LETTERS = 3.2  # in millimetres, where a cell has room for them
SMALLEST = 0.5  # the radius of a circle that is drawn as a point


def short(number: float) -> str:
    """A coordinate, in two places at most."""
    return f"{number:.2f}".rstrip("0").rstrip(".")


def load_bar(load: float, most: float) -> str:
    """The bar of a load beside that of the greatest, to the right of the middle or to its left."""
    length = 97 * abs(load) / most if most else 0.0
    drawn = ""
    if load:
        left, look = (100.0, 'fill="#444" stroke="#000"') if load > 0 else (100 - length, 'fill="#fff" stroke="#000"')
        drawn = f'<rect x="{short(left)}" y="2" width="{short(max(length, 0.5))}" height="10" {look}/>'
    return f'<svg class="bar" viewBox="0 0 200 14" aria-hidden="true"><path d="M100 0V14" stroke="#888"/>{drawn}</svg>'


def count_bar(count: int, most: int) -> str:
    """The bar of a count beside the greatest of its kind."""
    length = max(196 * count / most, 0.5) if count else 0.0
    drawn = f'<rect x="1" y="2" width="{short(length)}" height="10" fill="#444" stroke="#000"/>' if count else ""
    return f'<svg class="bar" viewBox="0 0 200 14" aria-hidden="true"><path d="M1 0V14" stroke="#888"/>{drawn}</svg>'


def circle(x: float, y: float, move: float, most: float) -> str:
    """A move's circle: its area goes with the move beside the greatest."""
    radius = 4.6 * sqrt(abs(move) / most) if move else 0.0
    if not radius:
        return ""
    if radius < SMALLEST:
        return f'<circle cx="{short(x)}" cy="{short(y)}" r=".3"/>'
    return f'<circle cx="{short(x)}" cy="{short(y)}" r="{short(radius - 0.3)}"{"" if move > 0 else HOLLOW}/>'


HOLLOW = ' fill="#fff" stroke="#000" stroke-width=".6"'


def moves_picture(moves: List[Optional[List[float]]]) -> str:
    """Which reading moves which pad: a row for each pad, a column for each reading. A pad without moves has a broken line."""
    most = max((abs(move) for row in moves for move in row or []), default=0.0)
    size = MARGIN + CELL * len(moves)
    width = min(WIDEST, 1.2 * size)
    parts = [grid(len(moves), size)]
    for k, row in enumerate(moves):
        middle = MARGIN + CELL * (k + 0.5)
        if row is None:
            parts.append(f'<path d="M{short(MARGIN)} {short(middle)}H{short(size)}" stroke="#000" stroke-width=".4" stroke-dasharray="2 2"/>')
        else:
            parts += [circle(MARGIN + CELL * (i + 0.5), middle, move, most) for i, move in enumerate(row)]
    letters = min(7.0, LETTERS * size / width)
    parts += labels(len(moves), size, letters)
    edge = max(0.0, MARGIN - 5 - 2.3 * letters)  # what lies before the letters is left off
    box = f"{short(edge)} {short(edge)} {short(size + 1 - edge)} {short(size + 1 - edge)}"
    return (f'<svg class="moves" viewBox="{box}" style="width:{short(width)}mm" role="img" '
            f'aria-label="A row for each pad, a column for each reading; the list below has the greatest of each row">{"".join(parts)}</svg>')


def grid(pads: int, size: float) -> str:
    """The lines between the cells."""
    places = [MARGIN + CELL * k for k in range(pads + 1)]
    lines = "".join(f"M{short(MARGIN)} {short(at)}H{short(size)}M{short(at)} {short(MARGIN)}V{short(size)}" for at in places)
    return f'<path d="{lines}" fill="none" stroke="#bbb" stroke-width=".3"/>'


def labels(pads: int, size: float, letters: float) -> List[str]:
    """The numbers of the pads and of the readings, in letters of this height."""
    middle, edge, far = short((size + MARGIN) / 2), short(MARGIN - 2), short(MARGIN - 4 - 1.3 * letters)
    parts = [f'<g font-size="{short(letters)}" text-anchor="middle">', f'<text x="{middle}" y="{far}">reading</text>',
             f'<text x="{far}" y="{middle}" transform="rotate(-90 {far} {middle})">pad</text>']
    for k in range(pads):
        at = MARGIN + CELL * (k + 0.5)
        parts.append(f'<text x="{edge}" y="{short(at + 0.36 * letters)}" text-anchor="end">{k + 1}</text><text x="{short(at)}" y="{edge}">{k + 1}</text>')
    return [*parts, "</g>"]
