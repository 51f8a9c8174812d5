"""The replay program's format: a case as bytes, the parts of a line, and both in readable form."""
import math
import struct
import sys
from array import array

assert sys.byteorder == 'little', 'slices are kept as the machine keeps them, and the format is little-endian'

LONGEST = 4168      # items that a slice of a case may have
NEWLINE = ' / '     # how ops 20 and 29 show each newline of a program's answer, the last one too

FLOATS, WORDS, BYTES = 'd', 'Q', 'B'


class Op:
    """A call: its name, the sizes that it reads, and its slices in order, each with what its items are."""

    def __init__(self, name, sizes, *slices):
        self.name, self.sizes = name, sizes
        self.slices = [(s, WORDS if s in ('swaps', 'pairs', 'two numbers', 'ranks0', 'lengths') else
                        BYTES if s in ('file', 'lent bytes', 'files') else FLOATS)
                       for s in slices]
        # the sizes that may be anything: k is the number of bytes where a slice has bytes
        self.free = sizes.replace('k', '') if BYTES in (kind for _, kind in self.slices) else sizes


OPS = {
    1: Op('factor', 'mn', 'matrix', 'out0', 'swaps'),
    2: Op('add a column', 'mn', 'store', 'column', 'swaps', 'pairs'),
    3: Op('solve', 'mnk', 'factors', 'swaps', 'pairs', 'right-hand sides', 'x0'),
    4: Op('inverse', 'mn', 'factors', 'swaps', 'pairs', 'x0'),
    5: Op('determinant', 'mn', 'factors', 'swaps', 'pairs'),
    6: Op('invertible', 'mn', 'factors', 'swaps', 'pairs'),
    7: Op('L', 'mn', 'factors', 'swaps', 'pairs', 'out0'),
    8: Op('U', 'mn', 'factors', 'swaps', 'pairs', 'out0'),
    9: Op('solve lower', 'nk', 'matrix', 'right-hand sides', 'x0'),
    10: Op('solve upper', 'nk', 'matrix', 'right-hand sides', 'x0'),
    11: Op('solve lower with the given diagonal', 'nk', 'matrix', 'diagonal', 'right-hand sides', 'x0'),
    12: Op('transposed lower', 'nk', 'matrix', 'right-hand sides', 'x0'),
    13: Op('transposed upper', 'nk', 'matrix', 'right-hand sides', 'x0'),
    14: Op('permute rows', 'mn', 'swaps', 'pairs', 'matrix'),
    15: Op('permute rows in reverse', 'mn', 'swaps', 'pairs', 'matrix'),
    16: Op('permute columns', 'mn', 'swaps', 'pairs', 'matrix'),
    17: Op('permute columns in reverse', 'mn', 'swaps', 'pairs', 'matrix'),
    18: Op('append to a swap list', 'm', 'swaps', 'pairs', 'two numbers'),
    19: Op('rank', 'mn', 'loads', 'ranks0'),
    20: Op('panel file', 'k', 'file'),
    21: Op('write a panel file', 'nk', 'matrix', 'readings', 'lent bytes'),
    22: Op('remove the last column', 'mn', 'store', 'swaps', 'pairs'),
    23: Op('pivot search', 'm', 'column'),
    24: Op('solve lower with the given diagonal, corrected', 'nk', 'matrix', 'diagonal', 'right-hand sides', 'x0'),
    25: Op('transposed solve', 'mnk', 'factors', 'swaps', 'pairs', 'right-hand sides', 'x0'),
    26: Op('how a pad moves, of a panel file', 'mk', 'file'),
    27: Op('explain factoring', 'mn', 'matrix', 'out0', 'swaps'),
    28: Op('explain a solve', 'mnk', 'factors', 'swaps', 'pairs', 'right-hand sides', 'x0'),
    29: Op('why a panel file is refused', 'k', 'file'),
    30: Op('scaled determinant', 'mn', 'factors', 'swaps', 'pairs'),
    31: Op('stiffness of a panel file', 'k', 'file'),
    32: Op('four pads', '', 'matrix', 'readings'),
    33: Op('four pads of a panel file', 'k', 'file'),
    34: Op('season', '', 'lengths', 'files'),
    35: Op('build up', 'mn', 'matrix', 'out0', 'swaps'),
}

# the ops that take factors: their slice `pairs` has two numbers, the pairs and the dead columns; in the other ops it has one
HELD = (2, 3, 4, 5, 6, 7, 8, 22, 25, 28, 30)


class Case:
    """One case: slices are arrays of doubles or of 64-bit numbers, a panel file's or lent bytes as bytes.
    `fresh` (adding and removing a column only) is the whole matrix that the factors, and the column to add, came from, where they did."""
    __slots__ = ('op', 'm', 'n', 'k', 'slices', 'fresh')

    def __init__(self, op, m, n, k, slices, fresh=None):
        self.op, self.m, self.n, self.k, self.slices, self.fresh = op, m, n, k, slices, fresh

    def at(self, name):
        """The place of the slice of that name."""
        return [s for s, _ in OPS[self.op].slices].index(name)

    def part(self, name):
        """The slice of that name."""
        return self.slices[self.at(name)]


# ---- bytes

def encode(case):
    out = [struct.pack('<BQQQ', case.op, case.m, case.n, case.k)]
    for items in case.slices:
        raw = items if isinstance(items, bytes) else items.tobytes()
        raw += bytes(-len(raw) % 8)
        out.append(struct.pack('<H', len(raw) // 8))
        out.append(raw)
    return b''.join(out)


# ---- the parts of a line

def hexes(floats):
    """16 small hex digits for each number, `nan` for a NaN."""
    turned = array('Q', floats.tobytes())
    turned.byteswap()
    text = turned.tobytes().hex(' ', 8)
    if any(map(math.isnan, floats)):
        text = ' '.join('nan' if math.isnan(x) else word for x, word in zip(floats, text.split(' ')))
    return text


def words(numbers):
    return ' '.join(map(str, numbers))


def unhex(text):
    """The numbers of a part without NaNs."""
    bits = array('Q', bytes.fromhex(text))
    bits.byteswap()
    return array('d', bits.tobytes())


def line(number, parts):
    return ' | '.join([str(number), *parts])


# ---- for a reader

def show(case, most=24):
    """The case in words: floats as decimal numbers with their bits."""
    op = OPS[case.op]
    out = [f"op {case.op}, {op.name}: " + ', '.join(f'{s} = {getattr(case, s)}' for s in op.sizes)]
    for (name, kind), items in zip(op.slices, case.slices):
        if kind == BYTES:
            shown = items[:6 + 8 * most].hex(' ')
        elif kind == WORDS:
            kept = len(items)
            while kept > 2 and items[kept - 1] == 0:
                kept -= 1
            shown = words(items[:kept]) + (f' (and {len(items) - kept} zeros)' if kept < len(items) else '')
        else:
            shown = ', '.join(f'{x!r} ({h})' for x, h in zip(items[:most], hexes(items[:most]).split(' ')))
        more = ' ...' if kind != WORDS and len(items) > most else ''
        name = 'pairs and dead columns' if name == 'pairs' and case.op in HELD else name
        out.append(f'  {name}, {len(items)} {"bytes" if kind == BYTES else "items"}: {shown}{more}')
    return '\n'.join(out)


def show_difference(expected, got, most=400):
    """Where two lines part: which part, which item, and both lines."""
    out = []
    a, b = expected.split(' | '), got.split(' | ')
    for p, (x, y) in enumerate(zip(a, b)):
        if x != y:
            place = 'the refusal number' if p == 0 else f'part {p}'
            xs, ys = x.split(' '), y.split(' ')
            i = next((i for i, (s, t) in enumerate(zip(xs, ys)) if s != t), None)
            if i is None:
                out.append(f'they part in {place}: {len(xs)} items expected, {len(ys)} printed')
            else:
                out.append(f'they part in {place}, item {i}: {xs[i]} expected, {ys[i]} printed')
            break
    else:
        out.append(f'{len(a) - 1} parts expected, {len(b) - 1} printed')
    for name, text in (('expected', expected), ('printed ', got)):
        out.append(f'{name}: {text[:most]}{" ..." if len(text) > most else ""}')
    return '\n'.join(out)
